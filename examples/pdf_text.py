#!/usr/bin/env python3
"""Prints the text of a PDF file, line by line: pdf_text.py FILE."""

import sys

import pikepdf

import hayro_cmap.pdf

with pikepdf.open(sys.argv[1]) as file:
    document = hayro_cmap.pdf.Document(file)
    for page in document.pages:
        for line in document.lines(page):
            print(line)
