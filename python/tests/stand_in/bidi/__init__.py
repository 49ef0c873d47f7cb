"""A package `bidi` over bidi_proved, for python-bidi's own tests."""
from .algorithm import get_base_level, get_display
