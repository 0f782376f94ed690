"""GeoPandas: schedules on a map."""

import geopandas
import pandas
from shapely.geometry import LineString

import gtd

ROADS = geopandas.GeoDataFrame(
    {
        "name": ["Market Street", "High Street", "School Lane", "Field Road"],
        "element": [101, 102, 103, 999],
        "direction": ["both", "both", "positive", "both"],
        "vehicles": ["0", "0", "!11", "11;12"],
        "domain": ["(t7h5){h10}", "(h22){h8}", None, "[(M8){M1}]"],
    },
    geometry=[LineString([(0, at), (1, at)]) for at in range(4)],
    crs="EPSG:31256",
)


def test_a_frame_of_roads_is_a_frame_of_records():
    plain = gtd.schedule(pandas.DataFrame(ROADS.drop(columns="geometry")), "2024-03-16", "2024-03-18", 11)
    schedule = gtd.schedule(ROADS, "2024-03-16", "2024-03-18", 11)
    assert type(schedule) is pandas.DataFrame and len(schedule) == 12
    pandas.testing.assert_frame_equal(schedule, plain)
    assert type(gtd.migrate(ROADS)) is pandas.DataFrame
    assert gtd.year(ROADS, 102, "negative", 11, 2024)["2024-03-16"] == 16 * 3600


def test_a_schedule_on_a_map(tmp_path):
    schedule = gtd.schedule(ROADS, "2024-03-16", "2024-03-18", 11)
    spans = ROADS[["name", "element", "geometry"]].merge(schedule, on="element")
    assert isinstance(spans, geopandas.GeoDataFrame) and spans.crs == ROADS.crs and len(spans) == len(schedule)
    seconds = (schedule["until"] - schedule["from"]).groupby(schedule["element"]).sum()
    roads = ROADS.assign(open_hours=ROADS["element"].map(seconds) / pandas.Timedelta("1h"))
    roads["inside"] = roads["domain"].gtd.contains("2024-03-16T23:00:00")
    roads.to_file(tmp_path / "open.geojson", driver="GeoJSON")
    again = geopandas.read_file(tmp_path / "open.geojson").set_index("element")
    assert again["open_hours"].to_dict() == {101: 76.0, 102: 64.0, 103: 96.0, 999: 96.0}
    assert again["inside"].astype(bool).to_dict() == {101: False, 102: True, 103: True, 999: False}
