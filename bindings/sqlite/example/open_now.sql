-- A layer of a GeoPackage: the roads on which a lorry (11) may now drive in the positive direction. `roads` has the elements, and
-- `restrictions` the rows of a record file.
CREATE VIEW open_now AS
SELECT roads.fid AS OGC_FID, roads.geom, roads.element, roads.name
FROM roads
WHERE NOT (SELECT gtd_closed(direction, vehicle, domain, 'positive', 11, datetime('now', 'localtime'))
           FROM restrictions WHERE restrictions.element = roads.element);

-- Programs for maps list the layers by these tables.
INSERT INTO gpkg_contents(table_name, data_type, identifier, srs_id)
SELECT 'open_now', 'features', 'open_now', srs_id FROM gpkg_contents WHERE table_name = 'roads';
INSERT INTO gpkg_geometry_columns(table_name, column_name, geometry_type_name, srs_id, z, m)
SELECT 'open_now', column_name, geometry_type_name, srs_id, z, m FROM gpkg_geometry_columns WHERE table_name = 'roads';
