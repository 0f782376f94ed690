"""300,000 rows on four workers, against the program on elements split by hand."""

from gtd import country
from tests.conftest import FIRST, VEHICLE, by_hand, joined
from tests.make_records import rows

UNTIL = "2024-01-15"


def test_300_000_rows(tmp_path):
    (tmp_path / "all.csv").write_text("".join(rows(300_000, 7)))
    with country.local(4) as client:
        done = country.schedule(tmp_path / "all.csv", FIRST, UNTIL, VEHICLE, tmp_path / "out", client=client, block_size=1 << 20)
        one = country.schedule(tmp_path / "all.csv", FIRST, UNTIL, VEHICLE, tmp_path / "one.csv", client=client, joined=True)
    expected = by_hand([tmp_path / "all.csv"], FIRST, UNTIL, VEHICLE, 40_000)
    assert done.rows == 300_000 and len(done.parts) == 5
    assert joined(tmp_path / "out") == expected
    assert (tmp_path / "one.csv").read_bytes() == expected
    assert one.size == len(expected)
