#!/usr/bin/env python3
"""Holds examples/excel/Mixegorta.bas against the library: types, declarations, limits and refusals, and its own names.

    tools/test_excel.py [-v]

Nothing here runs Visual Basic: no program that Debian has does.
"""
import re
import sys
import unittest

sys.dont_write_bytecode = True
import declarations
import exports
import source_tables
import wrapping
from exports import Number, Slice, Struct

PATH = exports.ROOT / 'examples/excel/Mixegorta.bas'
ELEMENTS = {'u8': 'Byte', 'u64': 'LongLong', 'f64': 'Double'}
# The types of the module by the structs that they stand for; and its name of a field that Visual Basic keeps.
TYPES = {'Written': 'Written', 'Price': 'Price', 'JobPrices': 'JobPrices'}
FIELDS = {'option': 'option_price'}
BLOCKS = (('Sub', r'(?:Public|Private) Sub'), ('Function', r'(?:Public|Private) Function'), ('Select', 'Select Case'),
          ('Type', 'Private Type'), ('If', r'If .* Then$'))
KEPT = set('''And As Attribute ByRef ByVal Case Const Declare Dim Do Else End Err Error Exit Explicit For Function GoTo If
IsArray IsError IsObject Join LBound LCase Left Len Lib Like Loop Mid Mod Next Not On Option Or Private PtrSafe Public
ReDim Replace Select Set Split Static Step Str StrConv StrPtr Sub Then To Trim True Type UBound Val VarType While Boolean
Byte Double Long LongLong LongPtr String Variant Worksheet CByte CDbl CLng CLngLng CStr InStr LSet MsgBox Selection
ThisWorkbook vbCr vbCrLf vbDouble vbExclamation vbLf vbObjectError vbTab vbUnicode'''.split())
# Names of Visual Basic's own statements, which no procedure and no variable may have.
STATEMENTS = {'put', 'get', 'open', 'close', 'print', 'write', 'input', 'line', 'name', 'seek', 'lock', 'stop', 'date'}


def code():
    """The module's lines without comments and with broken lines joined."""
    text = PATH.read_bytes().decode('ascii').replace('\r\n', '\n').replace(' _\n', ' ')
    lines = (re.sub(r'"[^"]*"|(\'.*)', lambda match: '' if match[1] else match[0], line) for line in text.split('\n'))
    return [re.sub(r' +', ' ', line.strip()) for line in lines if line.strip()]


def types():
    """The fields of each type with their Visual Basic types."""
    found = re.findall(r'^Private Type (\w+)\n(.*?)^End Type$', '\n'.join(code()), re.M | re.S)
    return {name: re.findall(r'^(\w+) As (\w+)$', fields, re.M) for name, fields in found}


def offsets(name, known, start=0):
    """The place of each field of a type, and where the type ends; every number has eight bytes."""
    found, place = {}, start
    for field, kind in known[name]:
        found[field] = place
        place = offsets(kind, known, place)[1] if kind in known else place + {'LongLong': 8}[kind]
    return found, place


def declared():
    """The parameters and the result of each function that is declared, by its name."""
    head = re.compile(r'^Private Declare PtrSafe Function (\w+) Lib "mixegorta\.dll" \((.*)\) As (\w+)$', re.M)
    return {name: ([tuple(part.split(' ')) for part in listed.split(', ') if part], result)
            for name, listed, result in head.findall('\n'.join(code()))}


def wanted(function):
    """The parameters and the result by Windows' convention: a struct is returned by an address before the arguments."""
    listed = []
    for name, kind in function.parameters:
        if isinstance(kind, Slice):
            listed += [('ByRef', name, 'As', ELEMENTS[kind.element.name]), ('ByVal', f'{name}_len', 'As', 'LongLong')]
        else:
            listed.append(('ByVal', name, 'As', 'LongLong'))
    if isinstance(function.result, Struct):
        return [('ByRef', 'answer', 'As', function.result.name), *listed], 'LongPtr'
    return listed, 'LongLong'


class Excel(unittest.TestCase):
    @classmethod
    def setUpClass(cls):
        cls.functions, records = exports.exported()
        cls.layout = wrapping.Layout(records)

    def test_it_is_a_file_of_windows_and_says_that_it_was_not_run(self):
        content = PATH.read_bytes()
        self.assertTrue(content.startswith(b'Attribute VB_Name = "Mixegorta"\r\nOption Explicit\r\n'))
        self.assertEqual(content.count(b'\n'), content.count(b'\r\n'))
        self.assertIn(b'HAS NOT BEEN RUN IN EXCEL', content)
        self.assertIn('has not been run in Excel', (PATH.parent / 'README.md').read_text(encoding='utf-8'))

    def test_the_types_are_laid_out_as_the_structs(self):
        known = types()
        for name in TYPES:
            found, size = offsets(name, known)
            places, place = {}, 0
            for field, kind in self.layout.records[name].fields:
                own, alignment = self.layout.of(kind)
                place = -(-place // alignment) * alignment
                places[FIELDS.get(field, field)] = place
                place += own
            self.assertEqual((found, size), (places, self.layout.of(Struct(name))[0]), name)

    def test_the_declarations_are_those_of_the_library(self):
        by_name, found = {function.name: function for function in self.functions}, declared()
        self.assertEqual(set(found), {'mixegorta_version', 'mixegorta_sheet', 'mixegorta_prices_of_job'})
        for name, told in found.items():
            self.assertEqual(told, wanted(by_name[name]), name)
            self.assertTrue(all(isinstance(kind, (Slice, Number)) for _, kind in by_name[name].parameters))

    def test_limits_and_refusals(self):
        text, header = '\n'.join(code()), declarations.header_constants((exports.ROOT / 'c/mixegorta.h').read_text())
        for name in ('SHEET_ROOM', 'MAX_DISCOUNTS', 'MAX_STATE_PRICES'):
            self.assertIn(f'Private Const {name} As Long = {header[name]}\n', text)
        causes = re.findall(r'^Case (\d+): Cause = "(.*)"$', text, re.M)
        causes = {int(number): words.replace('" & "', '') for number, words in causes}
        self.assertEqual(causes, {refusal.number: refusal.cause for refusal in source_tables.refusals()})

    def test_every_block_is_closed(self):
        lines = code()
        for name, pattern in BLOCKS:
            begun = sum(bool(re.match(pattern, line)) for line in lines)
            self.assertEqual(begun, sum(line == f'End {name}' for line in lines), name)
            self.assertGreater(begun, 0)
        for begin, end in (('For ', 'Next '), ('Do ', 'Loop')):
            self.assertEqual(*(sum(line.startswith(word) for line in lines) for word in (begin, end)))

    def test_every_name_is_declared(self):
        """As Option Explicit asks for; and no name is one of Visual Basic's own statements."""
        plain = [re.sub(r'"[^"]*"', '""', line) for line in code()]
        text = '\n'.join(plain)
        places = (r'(?:Sub|Function|Const|Type) (\w+)', r'(?:ByVal|ByRef) (\w+)', r'^(\w+) As', r'(\w+)\([^()]*\) As',
                  r'(?:Dim|Static|Private|,) (\w+)(?:\(\))? As', r'^(\w+):$')
        own = {name for pattern in places for name in re.findall(pattern, text, re.M)} - KEPT
        used = set(re.findall(r'(?<![.\w#&])[A-Za-z_]\w*', text)) - {'VB_Name'}
        self.assertEqual(used - own - KEPT, set())
        self.assertEqual({name for name in own if name.lower() in STATEMENTS}, set())


if __name__ == '__main__':
    unittest.main()
