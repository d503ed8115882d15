-- Sets the next edges of a topology from its geometry: what F11, F12 and F13 refuse.
--
--     psql -v topology=city -f examples/mend_next.sql
--
-- The edges that leave a node are put in order by the direction of their first segment, clockwise. Edges must meet in
-- nodes alone, and start and end node of each must be right; edges that are right already are left as they are.

\set ON_ERROR_STOP on

begin;
set constraints all deferred;

with line as (
    select edge_id, start_node, end_node, st_removerepeatedpoints(geom) as geom from :"topology".edge_data
), leaving as (
    select edge_id as edge, start_node as node, st_azimuth(st_startpoint(geom), st_pointn(geom, 2)) as direction
    from line
    union all
    select -edge_id, end_node, st_azimuth(st_endpoint(geom), st_pointn(geom, -2)) from line
), turned as (
    select edge, coalesce(lead(edge) over round, first_value(edge) over round) as turn
    from leaving window round as (partition by node order by direction)
)
update :"topology".edge_data e
set next_left_edge = l.turn, abs_next_left_edge = abs(l.turn),
    next_right_edge = r.turn, abs_next_right_edge = abs(r.turn)
from turned l, turned r
where l.edge = -e.edge_id and r.edge = e.edge_id and (e.next_left_edge <> l.turn or e.next_right_edge <> r.turn);

commit;
