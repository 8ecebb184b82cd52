"""Numbers of things in words."""


def count(number: int, one: str, many: str | None = None) -> str:
    """Returns a number of things in words; of none it says `no`."""
    return f"{'no' if number == 0 else format(number, ',')} {one if number == 1 else many or one + 's'}"
