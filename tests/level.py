"""The level at which the second simulator is compared, of tests/level, for the Python tests."""
import pathlib

LEVEL = (pathlib.Path(__file__).parent / "level").read_text().strip()


def at_level(simulator, *words):
    """A command line of the second simulator's program, at that level."""
    return [simulator, "--level", LEVEL, *words]
