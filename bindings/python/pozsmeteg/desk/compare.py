"""What became of the entries of an earlier sheet in a later one."""
from . import sheets
from .sheets import FINAL


def fates(old, new):
    """What became of each entry, found again by its time: lists of places by last word and fate."""
    at = {row[0]: place for place, row in enumerate(new.rows)}
    columns = common(old, new)
    told = {}
    for place, row in enumerate(old.rows):
        found = at.get(row[0])
        fate = "gone" if found is None else fate_of(row, new.rows[found], columns)
        if fate == "stayed" and found != place:
            fate = "stayed, at another place"
        told.setdefault((old.word(place), fate), []).append(place)
    return told


def common(old, new):
    """The columns that both have; a sheet without entries has any."""
    return min((sheet.columns() for sheet in (old, new) if sheet.rows), key=len, default=())


def fate_of(row, later, columns):
    moved = [name for place, name in enumerate(columns, 1) if row[place] != later[place]]
    return "moved: " + ", ".join(moved) if moved else "stayed"


def run(options):
    old, new = sheets.read(options.old), sheets.read(options.new)
    told = fates(old, new)
    print(f"earlier sheet: {len(old.rows)} entries, {old.final} final; later sheet: {len(new.rows)} entries, {new.final} final")
    for (word, fate), places in sorted(told.items()):
        print(f"  {len(places):6} {word:14}  {fate:32} entries {ranges(places)}")
    times = {row[0] for row in old.rows}
    print(f"  {sum(row[0] not in times for row in new.rows):6} new")
    if old.rows and new.rows and old.columns() != new.columns():
        print("one sheet has no distances, so they are not compared")
    return verdict(old, new, told)


def verdict(old, new, told):
    broken = sum(len(places) for (word, fate), places in told.items() if word == FINAL and fate != "stayed")
    fell = new.final < old.final
    if fell:
        print("the final count fell: the later submission does not begin with the earlier one")
    print(f"{broken} final {'entry' if broken == 1 else 'entries'} moved" if broken else "no final entry moved")
    return 1 if broken or fell else 0


def ranges(places):
    """Entry numbers, from 1, as a few stretches."""
    stretches = []
    for place in places:
        if stretches and place == stretches[-1][1] + 1:
            stretches[-1][1] = place
        else:
            stretches.append([place, place])
    text = [f"{a + 1}" if a == b else f"{a + 1}-{b + 1}" for a, b in stretches[:4]]
    return ", ".join(text) + (f" and {len(stretches) - 4} more stretches" if len(stretches) > 4 else "")


def register(add):
    parser = add(
        "compare", run, "which entries of an earlier sheet stayed and which moved; status 1 if a final one did",
        "desk compare yesterday.sheet today.sheet")
    parser.add_argument("old", metavar="OLD", help="the earlier sheet")
    parser.add_argument("new", metavar="NEW", help="the later sheet")
