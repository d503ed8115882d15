-- Reads a folder that `tackcherry dump FILE DIR` wrote into tables of a schema of its own:
--
--     psql -v schema=served -v folder=/tmp/tables -f examples/import.sql
--
-- The schema must not be there yet. The files are read by psql, so that no rights on the server's files are needed.
-- NULL stands where a node has no containing face and a region no parent; face 0 has no row.

\set ON_ERROR_STOP on
\if :{?schema}
\else
    do $$ begin raise exception 'say into which schema: -v schema=NAME'; end $$;
\endif
\if :{?folder}
\else
    \set folder .
\endif

begin;

create schema :"schema";
set local search_path to :"schema";

create table node (node_id bigint primary key, containing_face bigint);
create table edge (
    edge_id bigint primary key, start_node bigint not null, end_node bigint not null,
    next_left_edge bigint not null, next_right_edge bigint not null,
    left_face bigint not null, right_face bigint not null
);
create table face (face_id bigint primary key);
create table region (region_id bigint primary key, parent bigint);
create table member (region_id bigint not null, face_id bigint primary key);

\cd :folder
\copy node from 'node.csv' csv header
\copy edge from 'edge.csv' csv header
\copy face from 'face.csv' csv header
\copy region from 'region.csv' csv header
\copy member from 'member.csv' csv header

commit;
