"""The functions of bidi.algorithm that python-bidi's own tests call. `get_display` uses no storage: only the tests
look into one."""
from unicodedata import bidirectional

from bidi_proved.algorithm import get_base_level, get_display


def get_empty_storage():
    """Returns a storage with no characters."""
    return {"base_level": None, "base_dir": None, "chars": [], "runs": []}


def get_embedding_levels(text, storage, upper_is_rtl=False, debug=False):
    """Stores each character of a text with its class, at the base level."""
    for character in text:
        name = "R" if upper_is_rtl and character.isupper() else bidirectional(character)
        storage["chars"].append({"ch": character, "level": storage["base_level"], "type": name, "orig": name})
