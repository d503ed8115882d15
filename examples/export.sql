-- Writes a topology's tables as node.csv, edge.csv and face.csv into a folder that there is:
--
--     psql -v topology=city -v folder=/tmp/out -f examples/export.sql
--
-- and with -v layers=1,2,3 also region.csv and member.csv, from the layer of areas that names faces and those above it.
-- The files are written by psql, so that no rights on the server's files are needed. All tables are read as they are at
-- one moment. A topology to try it with, in an empty database (it is called city, its layers are 1 and 2):
--
--     create extension postgis; create extension postgis_topology;
--     select topology.CreateTopology('city');
--     -- a square in two halves:
--     select topology.TopoGeo_AddLineString('city', 'LINESTRING(0 0, 10 0, 10 10, 0 10, 0 0)');
--     select topology.TopoGeo_AddLineString('city', 'LINESTRING(5 0, 5 10)');
--     -- an island in the left half, and an isolated node in that:
--     select topology.TopoGeo_AddLineString('city', 'LINESTRING(1 1, 4 1, 2 4, 1 1)');
--     select topology.TopoGeo_AddPoint('city', 'POINT(2 2)');
--     -- a hole in the right half, and a bridge from it to the border:
--     select topology.TopoGeo_AddLineString('city', 'LINESTRING(6 2, 8 2, 8 4, 6 4, 6 2)');
--     select topology.TopoGeo_AddLineString('city', 'LINESTRING(8 3, 10 3)');
--     -- a line that joins nothing, and a triangle and an isolated node outside:
--     select topology.TopoGeo_AddLineString('city', 'LINESTRING(6 7, 8 8)');
--     select topology.TopoGeo_AddLineString('city', 'LINESTRING(12 0, 16 0, 14 3, 12 0)');
--     select topology.TopoGeo_AddPoint('city', 'POINT(12 8)');
--     -- two districts, and a town of both:
--     create table district (name text); create table town (name text);
--     select topology.AddTopoGeometryColumn('city', 'public', 'district', 'topo', 'POLYGON');
--     select topology.AddTopoGeometryColumn('city', 'public', 'town', 'topo', 'POLYGON', 1);
--     insert into district select 'west', topology.CreateTopoGeom('city', 3, 1, array[
--         array[topology.GetFaceByPoint('city', 'POINT(1 9)', 0), 3],
--         array[topology.GetFaceByPoint('city', 'POINT(2 3)', 0), 3]]);
--     insert into district select 'east', topology.CreateTopoGeom('city', 3, 1, array[
--         array[topology.GetFaceByPoint('city', 'POINT(9 9)', 0), 3]]);
--     insert into town select 'both', topology.CreateTopoGeom('city', 3, 2,
--         topology.TopoElementArray_Agg(array[(topo).id, 1])) from district;

\set ON_ERROR_STOP on
\if :{?topology}
\else
    do $$ begin raise exception 'say which topology: -v topology=NAME'; end $$;
\endif
\if :{?folder}
\else
    \set folder .
\endif

begin isolation level repeatable read read only;

\set file :folder '/node.csv'
copy (select node_id, containing_face from :"topology".node) to stdout with (format csv, header) \g :file

\set file :folder '/edge.csv'
copy (
    select edge_id, start_node, end_node, next_left_edge, next_right_edge, left_face, right_face
    from :"topology".edge_data
) to stdout with (format csv, header) \g :file

\set file :folder '/face.csv'
copy (select face_id from :"topology".face) to stdout with (format csv, header) \g :file

\if :{?layers}
    \set file :folder '/region.csv'
    copy (
        with areas as (
            select r.*, l.child_id from :"topology".relation r join topology.layer l using (layer_id)
            where l.topology_id = (select id from topology.topology where name = :'topology')
                and l.layer_id in (:layers)
        )
        select distinct c.layer_id * 1000000 + c.topogeo_id as region_id,
            p.layer_id * 1000000 + p.topogeo_id as parent
        from areas c left join areas p on p.child_id = c.layer_id and p.element_id = c.topogeo_id
        order by 1
    ) to stdout with (format csv, header) \g :file

    \set file :folder '/member.csv'
    copy (
        select r.layer_id * 1000000 + r.topogeo_id as region_id, r.element_id as face_id
        from :"topology".relation r join topology.layer l using (layer_id)
        where l.topology_id = (select id from topology.topology where name = :'topology')
            and l.layer_id in (:layers) and l.child_id is null and r.element_type = 3
        order by 1, 2
    ) to stdout with (format csv, header) \g :file
\endif

commit;
