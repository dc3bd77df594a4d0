"""The widths of the glyphs of the 14 standard fonts (ISO 32000-1, 9.6.2.2), in thousandths of the font size.

They are the entries WX of the Core 14 AFM files of Adobe (Font Metrics File Format 4.1), whose notice is: Copyright (c)
1985, 1987, 1989, 1990, 1991, 1992, 1993, 1997 Adobe Systems Incorporated. All Rights Reserved.
"""

from typing import Dict

#: The width of each glyph of the four Courier fonts.
COURIER = 600

#: The glyph names of the Latin fonts.
NAMES = """
    A AE Aacute Abreve Acircumflex Adieresis Agrave Amacron Aogonek Aring Atilde B C Cacute Ccaron Ccedilla D Dcaron
    Dcroat Delta E Eacute Ecaron Ecircumflex Edieresis Edotaccent Egrave Emacron Eogonek Eth Euro F G Gbreve
    Gcommaaccent H I Iacute Icircumflex Idieresis Idotaccent Igrave Imacron Iogonek J K Kcommaaccent L Lacute Lcaron
    Lcommaaccent Lslash M N Nacute Ncaron Ncommaaccent Ntilde O OE Oacute Ocircumflex Odieresis Ograve Ohungarumlaut
    Omacron Oslash Otilde P Q R Racute Rcaron Rcommaaccent S Sacute Scaron Scedilla Scommaaccent T Tcaron Tcommaaccent
    Thorn U Uacute Ucircumflex Udieresis Ugrave Uhungarumlaut Umacron Uogonek Uring V W X Y Yacute Ydieresis Z Zacute
    Zcaron Zdotaccent a aacute abreve acircumflex acute adieresis ae agrave amacron ampersand aogonek aring asciicircum
    asciitilde asterisk at atilde b backslash bar braceleft braceright bracketleft bracketright breve brokenbar bullet c
    cacute caron ccaron ccedilla cedilla cent circumflex colon comma commaaccent copyright currency d dagger daggerdbl
    dcaron dcroat degree dieresis divide dollar dotaccent dotlessi e eacute ecaron ecircumflex edieresis edotaccent
    egrave eight ellipsis emacron emdash endash eogonek equal eth exclam exclamdown f fi five fl florin four fraction g
    gbreve gcommaaccent germandbls grave greater greaterequal guillemotleft guillemotright guilsinglleft guilsinglright
    h hungarumlaut hyphen i iacute icircumflex idieresis igrave imacron iogonek j k kcommaaccent l lacute lcaron
    lcommaaccent less lessequal logicalnot lozenge lslash m macron minus mu multiply n nacute ncaron ncommaaccent nine
    notequal ntilde numbersign o oacute ocircumflex odieresis oe ogonek ograve ohungarumlaut omacron one onehalf
    onequarter onesuperior ordfeminine ordmasculine oslash otilde p paragraph parenleft parenright partialdiff percent
    period periodcentered perthousand plus plusminus q question questiondown quotedbl quotedblbase quotedblleft
    quotedblright quoteleft quoteright quotesinglbase quotesingle r racute radical rcaron rcommaaccent registered ring s
    sacute scaron scedilla scommaaccent section semicolon seven six slash space sterling summation t tcaron tcommaaccent
    thorn three threequarters threesuperior tilde trademark two twosuperior u uacute ucircumflex udieresis ugrave
    uhungarumlaut umacron underscore uogonek uring v w x y yacute ydieresis yen z zacute zcaron zdotaccent zero
""".split()


def latin(widths: str) -> Dict[str, int]:
    """The widths of a Latin font by glyph names, from widths in the order of `NAMES`."""
    return dict(zip(NAMES, map(int, widths.split())))


def by_width(text: str) -> Dict[str, int]:
    """The widths of a font by glyph names. A number is the width of the names after it."""
    widths: Dict[str, int] = {}
    width = 0
    for word in text.split():
        if word.isdigit():
            width = int(word)
        else:
            widths[word] = width
    return widths


#: Helvetica and Helvetica-Oblique.
HELVETICA = latin(
    """
    667 1000 667 667 667 667 667 667 667 667 667 667 722 722 722 722 722 722 722 612 667 667 667 667 667 667 667 667 667
    722 556 611 778 778 778 722 278 278 278 278 278 278 278 278 500 667 667 556 556 556 556 556 833 722 722 722 722 722
    778 1000 778 778 778 778 778 778 778 778 667 778 722 722 722 722 667 667 667 667 667 611 611 611 667 722 722 722 722
    722 722 722 722 722 667 944 667 667 667 667 611 611 611 611 556 556 556 556 333 556 889 556 556 667 556 556 469 584
    389 1015 556 556 278 260 334 334 278 278 333 260 350 500 500 333 500 500 333 556 333 278 278 250 737 556 556 556 556
    643 556 400 333 584 556 333 278 556 556 556 556 556 556 556 556 1000 556 1000 556 556 584 556 278 333 278 500 556
    500 556 556 167 556 556 556 611 333 584 549 556 556 333 333 556 333 333 222 278 278 278 278 278 222 222 500 500 222
    222 299 222 584 549 584 471 222 833 333 584 556 584 556 556 556 556 556 549 556 556 556 556 556 556 944 333 556 556
    556 556 834 834 333 370 365 611 556 556 537 333 333 476 889 278 278 1000 584 584 556 556 611 355 333 333 333 222 222
    222 191 333 333 453 333 333 737 333 500 500 500 500 500 556 278 556 556 278 278 556 600 278 317 278 556 556 834 333
    333 1000 556 333 556 556 556 556 556 556 556 556 556 556 500 722 500 500 500 500 556 500 500 500 500 556
    """
)

#: Helvetica-Bold and Helvetica-BoldOblique.
HELVETICA_BOLD = latin(
    """
    722 1000 722 722 722 722 722 722 722 722 722 722 722 722 722 722 722 722 722 612 667 667 667 667 667 667 667 667 667
    722 556 611 778 778 778 722 278 278 278 278 278 278 278 278 556 722 722 611 611 611 611 611 833 722 722 722 722 722
    778 1000 778 778 778 778 778 778 778 778 667 778 722 722 722 722 667 667 667 667 667 611 611 611 667 722 722 722 722
    722 722 722 722 722 667 944 667 667 667 667 611 611 611 611 556 556 556 556 333 556 889 556 556 722 556 556 584 584
    389 975 556 611 278 280 389 389 333 333 333 280 350 556 556 333 556 556 333 556 333 333 278 250 737 556 611 556 556
    743 611 400 333 584 556 333 278 556 556 556 556 556 556 556 556 1000 556 1000 556 556 584 611 333 333 333 611 556
    611 556 556 167 611 611 611 611 333 584 549 556 556 333 333 611 333 333 278 278 278 278 278 278 278 278 556 556 278
    278 400 278 584 549 584 494 278 889 333 584 611 584 611 611 611 611 556 549 611 556 611 611 611 611 944 333 611 611
    611 556 834 834 333 370 365 611 611 611 556 333 333 494 889 278 278 1000 584 584 611 611 611 474 500 500 500 278 278
    278 238 389 389 549 389 389 737 333 556 556 556 556 556 556 333 556 556 278 278 556 600 333 389 333 611 556 834 333
    333 1000 556 333 611 611 611 611 611 611 611 556 611 611 556 778 556 556 556 556 556 500 500 500 500 556
    """
)

#: Times-Roman.
TIMES = latin(
    """
    722 889 722 722 722 722 722 722 722 722 722 667 667 667 667 667 722 722 722 612 611 611 611 611 611 611 611 611 611
    722 500 556 722 722 722 722 333 333 333 333 333 333 333 333 389 722 722 611 611 611 611 611 889 722 722 722 722 722
    722 889 722 722 722 722 722 722 722 722 556 722 667 667 667 667 556 556 556 556 556 611 611 611 556 722 722 722 722
    722 722 722 722 722 722 944 722 722 722 722 611 611 611 611 444 444 444 444 333 444 667 444 444 778 444 444 469 541
    500 921 444 500 278 200 480 480 333 333 333 200 350 444 444 333 444 444 333 500 333 278 250 250 760 500 500 500 500
    588 500 400 333 564 500 333 278 444 444 444 444 444 444 444 500 1000 444 1000 500 444 564 500 333 333 333 556 500
    556 500 500 167 500 500 500 500 333 564 549 500 500 333 333 500 333 333 278 278 278 278 278 278 278 278 500 500 278
    278 344 278 564 549 564 471 278 778 333 564 500 564 500 500 500 500 500 549 500 500 500 500 500 500 722 333 500 500
    500 500 750 750 300 276 310 500 500 500 453 333 333 476 833 250 250 1000 564 564 500 444 444 408 444 444 444 333 333
    333 180 333 333 453 333 333 760 333 389 389 389 389 389 500 278 500 500 278 250 500 600 278 326 278 500 500 750 300
    333 980 500 300 500 500 500 500 500 500 500 500 500 500 500 722 500 500 500 500 500 444 444 444 444 500
    """
)

#: Times-Bold.
TIMES_BOLD = latin(
    """
    722 1000 722 722 722 722 722 722 722 722 722 667 722 722 722 722 722 722 722 612 667 667 667 667 667 667 667 667 667
    722 500 611 778 778 778 778 389 389 389 389 389 389 389 389 500 778 778 667 667 667 667 667 944 722 722 722 722 722
    778 1000 778 778 778 778 778 778 778 778 611 778 722 722 722 722 556 556 556 556 556 667 667 667 611 722 722 722 722
    722 722 722 722 722 722 1000 722 722 722 722 667 667 667 667 500 500 500 500 333 500 722 500 500 833 500 500 581 520
    500 930 500 556 278 220 394 394 333 333 333 220 350 444 444 333 444 444 333 500 333 333 250 250 747 500 556 500 500
    672 556 400 333 570 500 333 278 444 444 444 444 444 444 444 500 1000 444 1000 500 444 570 500 333 333 333 556 500
    556 500 500 167 500 500 500 556 333 570 549 500 500 333 333 556 333 333 278 278 278 278 278 278 278 333 556 556 278
    278 394 278 570 549 570 494 278 833 333 570 556 570 556 556 556 556 500 549 556 500 500 500 500 500 722 333 500 500
    500 500 750 750 300 300 330 500 500 556 540 333 333 494 1000 250 250 1000 570 570 556 500 500 555 500 500 500 333
    333 333 278 444 444 549 444 444 747 333 389 389 389 389 389 500 333 500 500 278 250 500 600 333 416 333 556 500 750
    300 333 1000 500 300 556 556 556 556 556 556 556 500 556 556 500 722 500 500 500 500 500 444 444 444 444 500
    """
)

#: Times-Italic.
TIMES_ITALIC = latin(
    """
    611 889 611 611 611 611 611 611 611 611 611 611 667 667 667 667 722 722 722 612 611 611 611 611 611 611 611 611 611
    722 500 611 722 722 722 722 333 333 333 333 333 333 333 333 444 667 667 556 556 611 556 556 833 667 667 667 667 667
    722 944 722 722 722 722 722 722 722 722 611 722 611 611 611 611 500 500 500 500 500 556 556 556 611 722 722 722 722
    722 722 722 722 722 611 833 611 556 556 556 556 556 556 556 500 500 500 500 333 500 667 500 500 778 500 500 422 541
    500 920 500 500 278 275 400 400 389 389 333 275 350 444 444 333 444 444 333 500 333 333 250 250 760 500 500 500 500
    544 500 400 333 675 500 333 278 444 444 444 444 444 444 444 500 889 444 889 500 444 675 500 333 389 278 500 500 500
    500 500 167 500 500 500 500 333 675 549 500 500 333 333 500 333 333 278 278 278 278 278 278 278 278 444 444 278 278
    300 278 675 549 675 471 278 722 333 675 500 675 500 500 500 500 500 549 500 500 500 500 500 500 667 333 500 500 500
    500 750 750 300 276 310 500 500 500 523 333 333 476 833 250 250 1000 675 675 500 500 500 420 556 556 556 333 333 333
    214 389 389 453 389 389 760 333 389 389 389 389 389 500 333 500 500 278 250 500 600 278 300 278 500 500 750 300 333
    980 500 300 500 500 500 500 500 500 500 500 500 500 444 667 444 444 444 444 500 389 389 389 389 500
    """
)

#: Times-BoldItalic.
TIMES_BOLD_ITALIC = latin(
    """
    667 944 667 667 667 667 667 667 667 667 667 667 667 667 667 667 722 722 722 612 667 667 667 667 667 667 667 667 667
    722 500 667 722 722 722 778 389 389 389 389 389 389 389 389 500 667 667 611 611 611 611 611 889 722 722 722 722 722
    722 944 722 722 722 722 722 722 722 722 611 722 667 667 667 667 556 556 556 556 556 611 611 611 611 722 722 722 722
    722 722 722 722 722 667 889 667 611 611 611 611 611 611 611 500 500 500 500 333 500 722 500 500 778 500 500 570 570
    500 832 500 500 278 220 348 348 333 333 333 220 350 444 444 333 444 444 333 500 333 333 250 250 747 500 500 500 500
    608 500 400 333 570 500 333 278 444 444 444 444 444 444 444 500 1000 444 1000 500 444 570 500 389 389 333 556 500
    556 500 500 167 500 500 500 500 333 570 549 500 500 333 333 556 333 333 278 278 278 278 278 278 278 278 500 500 278
    278 382 278 570 549 606 494 278 778 333 606 576 570 556 556 556 556 500 549 556 500 500 500 500 500 722 333 500 500
    500 500 750 750 300 266 300 500 500 500 500 333 333 494 833 250 250 1000 570 570 500 500 500 555 500 500 500 333 333
    333 278 389 389 549 389 389 747 333 389 389 389 389 389 500 333 500 500 278 250 500 600 278 366 278 500 500 750 300
    333 1000 500 300 556 556 556 556 556 556 556 500 556 556 444 667 500 444 444 444 500 389 389 389 389 500
    """
)

#: Symbol.
SYMBOL = by_width(
    """
    167 fraction 200 bar 247 minute 250 comma dotmath period space 274 integral 278 colon semicolon slash 329 angleleft
    angleright iota 333 Iota bracketleft bracketright exclam parenleft parenright 384 bracketleftbt bracketleftex
    bracketlefttp bracketrightbt bracketrightex bracketrighttp parenleftbt parenleftex parenlefttp parenrightbt
    parenrightex parenrighttp 400 degree 411 gamma second 439 epsilon sigma1 suchthat tau 444 question 460 bullet 480
    braceleft braceright 493 xi 494 braceex braceleftbt braceleftmid bracelefttp bracerightbt bracerightmid bracerighttp
    delta lozenge partialdiff zeta 500 asteriskmath eight five florin four nine numbersign one radicalex seven six three
    two underscore zero 521 nu phi theta 549 approxequal beta chi congruent divide equal equivalence existential greater
    greaterequal kappa lambda less lessequal minus multiply notequal omicron pi plus plusminus radical rho similar 556
    Rho 576 mu upsilon 592 Sigma 603 Gamma arrowdbldown arrowdblup arrowdown arrowup arrowvertex eta logicaland
    logicalor phi1 sigma 611 Epsilon Tau Zeta 612 Delta 620 Upsilon1 631 alpha theta1 645 Xi 658 carriagereturn
    perpendicular 667 Beta 686 Ifraktur Lambda integralbt integralex integraltp omega psi 690 Upsilon 713 element
    gradient infinity logicalnot notelement notsubset omega1 propersubset propersuperset proportional reflexsubset
    reflexsuperset summation universal 722 Alpha Chi Eta Kappa Nu Omicron 741 Theta 750 Euro 753 club diamond heart
    spade 763 Phi 768 Omega Pi angle circlemultiply circleplus intersection union 778 ampersand 786 trademarksans 790
    apple copyrightsans copyrightserif registersans registerserif 795 Psi Rfraktur 823 aleph emptyset product 833
    percent 863 therefore 889 Mu 890 trademarkserif 987 arrowdblleft arrowdblright arrowleft arrowright weierstrass 1000
    arrowhorizex ellipsis 1042 arrowboth arrowdblboth
    """
)

#: ZapfDingbats.
ZAPF_DINGBATS = by_width(
    """
    138 a82 234 a87 a88 276 a91 a92 277 a83 278 space 317 a93 a94 334 a95 a96 390 a89 a90 392 a97 a98 410 a206 a86 415
    a84 438 a81 458 a164 463 a177 494 a6 509 a205 a85 537 a8 544 a102 a103 549 a13 552 a7 571 a23 577 a9 595 a111 626
    a109 667 a106 668 a100 a99 677 a24 682 a56 687 a63 689 a65 690 a117 692 a10 694 a110 695 a49 696 a181 a200 a64 701
    a57 707 a54 a62 708 a55 713 a68 719 a4 723 a45 732 a101 744 a44 748 a192 a196 749 a46 754 a28 755 a19 759 a204 a27
    a53 a75 760 a107 a108 a183 a26 761 a22 a73 762 a203 a21 a74 763 a25 768 a51 771 a194 a197 776 a112 a50 784 a79 785
    a70 786 a29 a66 787 a67 788 a120 a121 a122 a123 a124 a125 a126 a127 a128 a129 a130 a131 a132 a133 a134 a135 a136
    a137 a138 a139 a140 a141 a142 a143 a144 a145 a146 a147 a148 a149 a150 a151 a152 a153 a154 a155 a156 a157 a158 a159
    a30 a31 a78 789 a37 a5 a60 a61 790 a119 a32 a47 791 a118 a69 a71 792 a48 a52 793 a33 794 a34 815 a59 816 a35 a41 823
    a36 a39 826 a58 828 a172 831 a187 a42 833 a40 834 a170 836 a179 a193 838 a161 841 a38 846 a20 855 a14 865 a185 867
    a180 a199 873 a171 a188 a72 874 a182 a201 883 a178 888 a195 a198 892 a76 a77 894 a160 910 a104 911 a105 a15 917 a174
    918 a166 a191 923 a43 924 a162 a165 a173 927 a167 a189 928 a168 a169 930 a175 931 a176 933 a16 939 a12 945 a17 946
    a184 960 a11 961 a2 967 a186 970 a190 974 a1 a18 a202 980 a3 1016 a163
    """
)

#: The Courier fonts.
COURIERS: Dict[str, int] = dict.fromkeys(NAMES, COURIER)
