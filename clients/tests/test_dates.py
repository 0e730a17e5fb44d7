"""Dates as git reads them. scenes/filters.py has the same beside git itself."""
import os
import time
import unittest
from typing import Optional

from gitpool_dates import raw_date


def mail(date: str) -> Optional[str]:
    found = raw_date(date.encode(), "rfc2822")
    return None if found is None else found.decode()


class Dates(unittest.TestCase):
    def setUp(self) -> None:
        kept = os.environ.get("TZ")
        os.environ["TZ"] = "EST5EDT"
        time.tzset()
        self.addCleanup(self.restore, kept)

    @staticmethod
    def restore(kept: Optional[str]) -> None:
        os.environ.pop("TZ") if kept is None else os.environ.update(TZ=kept)
        time.tzset()

    def test_dates_of_mails(self) -> None:
        """Each of these is what git 2.39.5 stores."""
        for date, wanted in {
            "Tue Feb 6 11:22:18 2007 -0500": "1170778938 -0500", "Tue, 6 Feb 2007 11:22:18 +0530": "1170741138 +0530",
            "Tue Feb 6 11:22:18 2007 +05:30": "1170741138 +0530", "Tue Feb 6 11:22:18 2007 EDT": "1170775338 -0400",
            "2007-02-06 11:22:18.123 EDT": "1170775338 -0400", "20070206T112218Z": "1170760938 +0000", "@1234567 +0100": "1234567 +0100",
            "1234567890 +0100": "1234567890 +0100", "Thu Jan 1 00:00:00 1970 +0100": "18446744073709548016 +0100",
            "Tue Feb 6 11:22:18 2007": "1170778938 -0500", "Fri Jul 6 11:22:18 2007": "1183735338 -0400",
            "Tue Feb 6 11:22:18 2007 0500": "1170742938 +0500",
        }.items():
            self.assertEqual(mail(date), wanted, date)

    def test_no_dates(self) -> None:
        for date in ("", "now", "2007", "Tue Feb 6 2007", "12345 +0100", "11:22:18", "Tue Feb 6 25:61:00 2007", "20070206T11Z", "9" * 400,
                     "\xff"):
            self.assertIsNone(mail(date), date)

    def test_raw_dates(self) -> None:
        for date, form, wanted in (
                (b"1 +0000", "raw", b"1 +0000"), (b"1 +530", "raw", b"1 +0530"), (b"1 +1500", "raw", None),
                (b"1 +1500", "raw-permissive", b"1 +1500"),
                (b"1 +051800", "raw-permissive", b"1 +0000"), (b"1 -00530", "raw-permissive", b"1 -0530"),
                (b"-1 +0000", "raw-permissive", None),
                (b"1 0000", "raw", None), (b"1 +", "raw", None), (b"x", "now", None)):
            self.assertEqual(raw_date(date, form), wanted, date)

    def test_numbers_of_any_length(self) -> None:
        """Python reads no number of more than 4,300 digits."""
        long = "9" * 5000
        for date in (long, f"{long}:1:1", f"1:{long}", f"1-1-{long}", f"@{long} +0000", f"1 Jan 2007 11:22:18 +{long}x"):
            mail(date)
        self.assertIsNone(mail(long))
        self.assertEqual(mail("Tue Feb 6 11:22:18 2007 +" + "0" * 5000), mail("Tue Feb 6 11:22:18 2007 +00000"))
        self.assertEqual(raw_date(b"1 +" + b"9" * 5000, "raw-permissive"), b"1 +0000")
        self.assertEqual(raw_date(b"1 +" + b"0" * 5000 + b"130", "raw"), b"1 +0130")

    def test_now(self) -> None:
        found = raw_date(b"now", "now")
        assert found
        seconds, offset = found.split()
        self.assertLess(abs(int(seconds) - time.time()), 60)
        self.assertIn(offset, (b"-0500", b"-0400"))


if __name__ == "__main__":
    unittest.main()
