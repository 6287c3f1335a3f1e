"""What published pages say, in English and in German."""
from __future__ import annotations

from enum import Enum


class Language(Enum):
    ENGLISH = "en"
    GERMAN = "de"


GERMAN = {
    "All weeks": "Alle Wochen",
    "Calendar for a telephone": "Kalender fürs Telefon",
    "Address of the calendar": "Adresse des Kalenders",
    "News of this week": "Neues zu dieser Woche",
    "What has changed": "Was sich geändert hat",
    "Check this timetable yourself": "Diesen Stundenplan selbst prüfen",
    "Single dates": "Einzelne Termine",
    "published for the first time": "zum ersten Mal veröffentlicht",
    "new": "neu",
    "changed": "geändert",
    "Not placed": "Noch ohne Termin",
    "Teachers": "Lehrende",
    "Curricula": "Studiengänge",
    "Rooms": "Räume",
    "Courses": "Veranstaltungen",
    "Teacher": "Lehrperson",
    "Curriculum": "Studiengang",
    "Room": "Raum",
    "Course": "Veranstaltung",
    "from": "ab",
    "to": "bis",
    "of": "von",
    "off": "entfällt",
    "on this date alone": "nur an diesem Tag",
    "placed on": "neu am",
    "taken out of": "entfällt am",
    "name or code": "Name oder Kürzel",
    "nothing is called so": "nichts heißt so",
    "day": "Tag",
    "period": "Stunde",
}
# one, and several
NOUNS = {
    "course": ("Veranstaltung", "Veranstaltungen"),
    "lecture": ("Termin", "Termine"),
    "seat": ("Platz", "Plätze"),
    "student": ("Teilnehmer", "Teilnehmer"),
}
WEEKDAYS_OF = {Language.GERMAN: "Mo Di Mi Do Fr Sa So".split()}


def said(language: Language, text: str) -> str:
    """A word or a sentence of a page."""
    return GERMAN[text] if language is Language.GERMAN else text


def counted_in(language: Language, count: int, noun: str) -> str:
    """A number with its noun."""
    if language is Language.GERMAN:
        return f"{count} {NOUNS[noun][count != 1]}"
    return f"{count} {noun}" + ("s" if count != 1 else "")
