"""The library of a GDSII text: its structures by name, each a list of elements."""
import records as kinds
from elements import FIRST_RECORDS, element_behind
from records import Reader, name_in, nanometres, of_kind
from replies import test


def library_of(text):
    """The structures of a library's text; the first fault of the text refuses it. What stands behind ENDLIB isn't
    looked at."""
    reader = Reader(text)
    reader.need(kinds.HEADER)
    reader.need(kinds.BGNLIB)
    unit = unit_behind(reader)
    structures = {}
    while True:
        record = reader.need(kinds.BGNSTR, kinds.ENDLIB)
        if record.kind == kinds.ENDLIB:
            return structures
        record = reader.need(kinds.STRNAME)
        name = name_in(record)
        test(name not in structures, "doublename", record.offset)
        structures[name] = elements_behind(reader, unit)


def unit_behind(reader):
    """The database unit in nm. LIBNAME stands once before UNITS; other records round them aren't looked at, but that
    neither a structure nor the library may begin or end there."""
    is_named = False
    while True:
        record = reader.next()
        is_strange = record.kind in (kinds.HEADER, kinds.BGNLIB, kinds.BGNSTR, kinds.ENDLIB)
        test(not is_strange, "unexpected", record.offset)
        if record.kind == kinds.LIBNAME:
            test(not is_named, "unexpected", record.offset)
            is_named = True
        if record.kind == kinds.UNITS:
            test(is_named, "unexpected", record.offset)
            return nanometres(record)


def elements_behind(reader, unit):
    """The elements of a structure, up to its ENDSTR; properties and its class are passed over between them."""
    elements = []
    while True:
        record = reader.next()
        if record.kind == kinds.ENDSTR:
            return elements
        if record.kind in (kinds.PROPATTR, kinds.PROPVALUE, kinds.STRCLASS):
            continue
        element = element_behind(reader, of_kind(record, *FIRST_RECORDS), unit)
        if element is not None:
            elements.append(element)
