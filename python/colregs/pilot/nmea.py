"""The pilot's decisions as NMEA sentences (IEC 61162-1): HTC, the command to a heading control system, and TXT for the
state in words."""
from __future__ import annotations

from colregs.io.sentences import total
from colregs.pilot.states import Decision, State

TALKER = "IN"              # integrated navigation
LONGEST = 61               # characters of a TXT sentence's text
IDENTIFIERS = {state: number for number, state in enumerate(State, 1)}


def sentence(body: str) -> str:
    """Returns a sentence with its start character and its checksum."""
    return f"${body}*{total(body.encode('ascii', 'replace')):02X}"


def command_sentence(decision: Decision, turn: float) -> str:
    """Returns HTC: heading control to the true course to steer, by a rate of turn in degrees per minute, without
    override or limits."""
    return sentence(f"{TALKER}HTC,V,,,H,T,,,,{turn:.1f},{decision.course % 360:.1f},,,T")


def text_sentence(decision: Decision) -> str:
    """Returns TXT: the state with its number, and a text. Characters that a sentence reserves become spaces."""
    words = decision.state.value + (f": {decision.words}" if decision.words else "")
    plain = "".join(letter if " " <= letter <= "~" and letter not in "!$*,\\^~" else " " for letter in words)[:LONGEST]
    return sentence(f"{TALKER}TXT,01,01,{IDENTIFIERS[decision.state]:02},{plain}")
