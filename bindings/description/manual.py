"""The manual page of the header. A comment is text; code is shown as it is."""

import re

from .header import parts_of

HEAD = """\
.TH CUKVASHE_DES 3 "" "Cukvashe {version}" "Library calls"
.nh
.ad l
.SH NAME
cukvashe_des \\- DES, triple DES and payment formats
.SH SYNOPSIS
.nf
.B #include <cukvashe_des.h>
.PP
.RI "cc " program.c " \\-lcukvashe_des"
.fi
.SH DESCRIPTION"""

# What is said of the version and of the macro of the warning is said where they are, and they are no part of the page.
LEFT_OUT = ("The version of this header", "What a call that returns a status is declared with", "The library shows the calls")


class Page:
    """The lines of the page: text, and what stands as it is between .nf and .fi."""

    def __init__(self):
        self.lines, self.is_verbatim = [], False

    def verbatim(self, is_on):
        if is_on != self.is_verbatim:
            self.lines += [".PP", ".nf"] if is_on else [".fi", ".PP"]
        self.is_verbatim = is_on

    def put(self, line):
        line = line.replace("\\", "\\e").replace("-", "\\-")
        self.lines.append(re.sub(r"^(?=[.'])", r"\\&", line))

    def comment(self, text):
        for kind, lines in parts_of(text):
            self.verbatim(kind == "verbatim")
            if kind == "heading":
                self.lines.append(f'.SH "{lines[0]}"')
                continue
            if self.lines and not self.lines[-1].startswith("."):
                self.lines.append("" if self.is_verbatim else ".PP")
            for line in lines:
                self.put(line)
                if not self.is_verbatim:
                    self.lines[-1] = re.sub(r"`([^`]*)`", r"\\fI\1\\fP", self.lines[-1])

    def code(self, lines):
        if lines:
            self.verbatim(True)
            for line in lines:
                self.put(line)


def page(header):
    made = Page()
    for piece in header.pieces:
        if piece.is_comment and piece.text.strip().startswith(LEFT_OUT):
            continue
        if not piece.is_comment:
            made.code(piece.code)
        else:
            made.comment(piece.text)
    made.verbatim(False)
    return [*HEAD.format(version=header.version).split("\n"), *made.lines]
