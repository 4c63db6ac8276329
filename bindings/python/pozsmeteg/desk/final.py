"""The final entries of a sheet, for copying."""
from . import sheets


def run(options):
    sheet = sheets.read(options.sheet)
    for row in sheet.rows[: sheet.final]:
        print(sheets.exact(row))
    return 0


def register(add):
    parser = add(
        "final", run, "the final entries, exact: one a line, first as decimals that read back to the same bits, then as hexadecimal words\n"
        "(time in GPS seconds; raw, detrended and passed in m/s²; distance in metres where the sheet has it)",
        "desk final day.sheet", "desk final day.sheet >copy.txt")
    parser.add_argument("sheet", metavar="SHEET")
