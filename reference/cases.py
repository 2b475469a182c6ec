#!/usr/bin/env python3
"""The test files.  CASES is a list of (name, bytes, expected, kind).

expected: for a file with a fault, the "number,line" put down BY HAND from the
          rules of the format (make.py compares it with what reference.py says);
          None for a good file, whose listing comes from reference.py;
          a text for the few good files whose listing is known by hand.
kind:     "text" (at most 40 lines of output) or "large".

The cases named in MORE (at the end) are checked here and left out of the table:
they repeat a cause that another case has, at another place or in another dress.
"""

CASES = []


def case(name, data, expected=None, kind="text"):
    CASES.append((name, data, expected, kind))


def lines(ls):
    return b"".join(l + b"\n" for l in ls)


# The base files: both good, both with two readings, so that line 5 is the first
# reading, line 6 a later reading, line 7 `end`, line 8 after `end`.
PLANE = [b"sheet=plane", b"liars=0", b"grain=1", b"start=0,0,3,3",
         b"ring=0,0,0,3", b"cone=0,0,1,0,1,1", b"end=2"]
DIAL = [b"sheet=dial", b"liars=0", b"grain=1", b"start=0,20",
        b"arc=5,10", b"arc=8,10", b"end=2"]
BASES = (("plane", PLANE), ("dial", DIAL))
SORTS = ("sheet", "liars", "grain", "start", "first_reading", "later_reading", "end")


def put(base, n, text):
    """The base with line n (from 1) replaced."""
    return lines(base[:n - 1] + [text] + base[n:])


def drop(base, n):
    return lines(base[:n - 1] + base[n:])


def before(base, n, text):
    """The base with a line put in before line n."""
    return lines(base[:n - 1] + [text] + base[n - 1:])


def cut(base, n, text=None):
    """Lines 1 to n - 1, then line n (or text) without byte 10."""
    return lines(base[:n - 1]) + (base[n - 1] if text is None else text)


# ------------------------------------------------------------ good: worked by hand

case("four_by_four", lines([b"sheet=plane", b"liars=0", b"grain=1", b"start=0,0,3,3",
                            b"ring=0,0,0,3", b"end=1"]),
     "in=0,0,0,0,3\nin=1,1,0,3,0\nout=2,1,3,1,3\nin=3,1,1,1,2\nout=4,3,1,3,3\n"
     "out=5,2,3,2,3\nin=6,2,1,2,2\nsum=11,5,0,3\n")
case("three_arcs", lines([b"sheet=dial", b"liars=1", b"grain=1", b"start=0,3600",
                                b"arc=10,5", b"arc=12,5", b"arc=100,5", b"end=3"]),
     "out=0,0,12\nout=1,15,3585\nin=2,12,3\nsum=3,3597,0,1\n")
case("base_plane", lines(PLANE))
case("base_dial", lines(DIAL), "out=0,0,8\nout=1,15,5\nin=2,8,7\nsum=7,13,0,1\n")

# ------------------------------------------------------------ 18: the file's length

GOOD = lines(PLANE)
case("length_4097_one_line_without_newline", b"a" * 4097, "18,0")
case("length_4097_empty_lines", b"\n" * 4097, "18,0")
case("length_4097_good_lines_then_filler", GOOD + b"\n" * (4097 - len(GOOD)), "18,0")
case("length_4097_dial_then_filler", lines(DIAL) + b"x" * (4097 - len(lines(DIAL))), "18,0")
case("length_4097_with_fault_on_line_1", b"liars=0\n" + b"x" * 4089, "18,0")
case("length_4096_one_line_without_newline", b"a" * 4096, "15,1")
case("length_4096_empty_lines", b"\n" * 4096, "15,1")
case("length_4096_good_lines_then_filler", GOOD + b"\n" * (4096 - len(GOOD)), "15,8")
case("length_4096_long_liars", b"sheet=plane\nliars=" + b"1" * (4096 - 19) + b"\n", "16,2")
case("length_4096_fault_2_on_line_3", b"sheet=dial\nliars=0\ngrain=0\n" + b"z" * (4096 - 27), "2,3")

# ------------------------------------------------------------ 15: file ends early

case("empty_file", b"", "15,1")
for sheet, base in BASES:
    for n, sort in enumerate(SORTS[:6], 1):
        if n == 1 and sheet == "dial":
            continue
        if sheet == "dial" and n in (2, 3):
            continue                                   # alike for both sheets
        case("%s_ends_after_%s" % (sheet, sort), lines(base[:n]), "15,%d" % (n + 1))

# ------------------------------------------------------------ 16: the last newline missing

for sheet, base in BASES:
    for n, sort in enumerate(SORTS, 1):
        case("%s_unended_%s" % (sheet, sort), cut(base, n), "16,%d" % n)
case("plane_unended_grain_out_of_range", cut(PLANE, 3, b"grain=65"), "16,3")
case("dial_unended_grain_out_of_range", cut(DIAL, 3, b"grain=0"), "16,3")
case("plane_unended_start_not_a_piece", cut(PLANE, 4, b"start=0,0,4096,0"), "16,4")
case("dial_unended_start_not_a_piece", cut(DIAL, 4, b"start=0,0"), "16,4")
case("plane_unended_ring_bad_radii", cut(PLANE, 5, b"ring=0,0,3,2"), "16,5")
case("plane_unended_later_cone_bad_product", cut(PLANE, 6, b"cone=0,0,1,0,1,0"), "16,6")
case("dial_unended_arc_not_a_piece", cut(DIAL, 5, b"arc=3600,1"), "16,5")
case("plane_unended_end_wrong_count", cut(PLANE, 7, b"end=3"), "16,7")
case("dial_unended_end_wrong_count", cut(DIAL, 7, b"end=1"), "16,7")
case("unended_unknown_key_on_sheet_line", b"shee=plane", "15,1")
case("unended_unknown_key_on_liars_line", cut(PLANE, 2, b"liar=0"), "15,2")
case("unended_key_not_due_on_grain_line", cut(PLANE, 3, b"start=0,0,3,3"), "15,3")
case("unended_unknown_key_on_start_line", cut(DIAL, 4, b"stop=0,20"), "15,4")
case("unended_end_where_reading_due", cut(PLANE, 5, b"end=0"), "15,5")
case("unended_arc_on_plane", cut(PLANE, 5, b"arc=0,1"), "15,5")
case("unended_ring_on_dial_later", cut(DIAL, 6, b"ring=0,0,0,3"), "15,6")
case("unended_unknown_key_where_end_due", cut(PLANE, 7, b"ende=2"), "15,7")
case("unended_due_key_without_equals_sheet", b"sheet", "15,1")
case("unended_due_key_without_equals_ring", cut(PLANE, 5, b"ring"), "15,5")
case("unended_due_key_without_equals_end", cut(DIAL, 7, b"end"), "15,7")
case("unended_line_after_end", GOOD + b"x", "15,8")
case("unended_second_end", GOOD + b"end=2", "15,8")

# ------------------------------------------------------------ 15: keys

case("bytes_before_first_key_byte_order_mark", b"\xef\xbb\xbf" + GOOD, "15,1")
case("key_empty_on_sheet_line", put(PLANE, 1, b"=1"), "15,1")
case("key_capital_sheet", put(PLANE, 1, b"Sheet=plane"), "15,1")
case("key_leading_space_sheet", put(PLANE, 1, b" sheet=plane"), "15,1")
case("key_trailing_space_liars", put(PLANE, 2, b"liars =0"), "15,2")
case("key_with_nul_grain", put(PLANE, 3, b"grain\x00=1"), "15,3")
case("key_with_cr_start", put(DIAL, 4, b"\rstart=0,20"), "15,4")
case("key_leading_space_ring", put(PLANE, 5, b" ring=0,0,0,3"), "15,5")
case("key_capital_ring", put(PLANE, 5, b"Ring=0,0,0,3"), "15,5")
case("key_empty_first_reading", put(PLANE, 5, b"=1"), "15,5")
case("key_capital_arc_later", put(DIAL, 6, b"ARC=8,10"), "15,6")
case("key_plural_later_reading", put(PLANE, 6, b"rings=0,0,0,3"), "15,6")
case("key_prefix_of_end", put(PLANE, 7, b"en=2"), "15,7")
case("key_colon_for_equals", put(PLANE, 2, b"liars:0"), "15,2")
case("key_not_utf8", put(PLANE, 2, b"\xff\xfe=0"), "15,2")

for n, sort, text in ((1, "sheet", b"sheet"), (2, "liars", b"liars"), (3, "grain", b"grain"),
                      (4, "start", b"start"), (5, "ring", b"ring"), (6, "cone", b"cone"),
                      (7, "end", b"end")):
    case("no_equals_%s" % sort, put(PLANE, n, text), "15,%d" % n)
case("no_equals_arc", put(DIAL, 5, b"arc"), "15,5")
case("no_equals_value_only", put(PLANE, 1, b"plane"), "15,1")

for n, sort in enumerate(SORTS, 1):
    case("empty_line_before_%s" % sort, before(PLANE if n % 2 else DIAL, n, b""), "15,%d" % n)
case("empty_line_after_end_plane", GOOD + b"\n", "15,8")
case("empty_line_after_end_dial", lines(DIAL) + b"\n", "15,8")
case("reading_after_end", GOOD + b"ring=0,0,0,3\n", "15,8")
case("arc_after_end_dial", lines(DIAL) + b"arc=0,1\n", "15,8")
case("second_end_after_end", GOOD + b"end=2\n", "15,8")
case("second_file_after_end", GOOD + GOOD, "15,8")
case("nul_after_end", GOOD + b"\x00", "15,8")
case("comment_after_end", GOOD + b"# done\n", "15,8")
case("unknown_key_after_end_dial", lines(DIAL) + b"note=1\n", "15,8")

for n, sort in enumerate(SORTS[:4], 1):
    base = PLANE if n % 2 else DIAL
    case("missing_%s" % sort, drop(base, n), "15,%d" % n)
    case("doubled_%s" % sort, before(base, n, base[n - 1]), "15,%d" % (n + 1))
case("missing_readings_end_0", lines(PLANE[:4] + [b"end=0"]), "15,5")
case("missing_readings_end_1_dial", lines(DIAL[:4] + [b"end=1"]), "15,5")
case("missing_readings_end_malformed", lines(PLANE[:4] + [b"end=00"]), "15,5")
case("order_grain_before_liars", lines([PLANE[0], PLANE[2], PLANE[1]] + PLANE[3:]), "15,2")
case("order_ring_before_start", lines(PLANE[:3] + [PLANE[4], PLANE[3]] + PLANE[5:]), "15,4")
case("order_liars_among_readings", before(PLANE, 6, b"liars=0"), "15,6")
case("order_start_among_readings_dial", before(DIAL, 6, b"start=0,20"), "15,6")
case("order_sheet_where_end_due", put(DIAL, 7, b"sheet=dial"), "15,7")
case("not_due_with_bad_value_liars_line", put(PLANE, 2, b"grain=x"), "15,2")
case("not_due_with_bad_value_start_line", put(DIAL, 4, b"arc=9999,01"), "15,4")
case("arc_on_plane_first", put(PLANE, 5, b"arc=5,10"), "15,5")
case("arc_on_plane_first_bad_value", put(PLANE, 5, b"arc=x"), "15,5")
case("arc_on_plane_later", put(PLANE, 6, b"arc=5,10"), "15,6")
case("ring_on_dial_first", put(DIAL, 5, b"ring=0,0,0,3"), "15,5")
case("cone_on_dial_first_bad_value", put(DIAL, 5, b"cone=99999,0,1,0,1,0"), "15,5")
case("ring_on_dial_later_bad_value", put(DIAL, 6, b"ring=0,0,3,2"), "15,6")
case("cone_on_dial_later", put(DIAL, 6, b"cone=0,0,1,0,1,1"), "15,6")
case("unknown_key_first_reading", put(PLANE, 5, b"box=0,0,3,3"), "15,5")
case("unknown_key_first_reading_dial", put(DIAL, 5, b"angle=5,10"), "15,5")
case("unknown_key_where_end_due_dial", put(DIAL, 7, b"count=2"), "15,7")

# ------------------------------------------------------------ 16: the sheet's name

for name, text in (("empty", b"sheet="), ("unknown", b"sheet=globe"), ("capital", b"sheet=Plane"),
                   ("with_second_equals", b"sheet=plane="), ("leading_space", b"sheet= plane"),
                   ("trailing_space", b"sheet=dial "), ("nul", b"sheet=dial\x00"),
                   ("number", b"sheet=1"), ("two_names", b"sheet=plane,dial")):
    case("sheet_name_%s" % name, put(PLANE if b"pl" in text else DIAL, 1, text), "16,1")
case("cr_lf_plane", GOOD.replace(b"\n", b"\r\n"), "16,1")
case("cr_lf_dial", lines(DIAL).replace(b"\n", b"\r\n"), "16,1")
case("cr_for_lf", GOOD.replace(b"\n", b"\r"), "16,1")

# ------------------------------------------------------------ 16: how a number is written
# each at a place where the number meant would be in order

case("number_minus_zero", put(PLANE, 5, b"ring=-0,0,0,3"), "16,5")
case("number_double_zero", put(PLANE, 2, b"liars=00"), "16,2")
case("number_leading_zero", put(PLANE, 3, b"grain=01"), "16,3")
case("number_minus_leading_zero", put(PLANE, 5, b"ring=-01,0,0,3"), "16,5")
case("number_plus", put(PLANE, 3, b"grain=+1"), "16,3")
case("number_point", put(PLANE, 3, b"grain=1.0"), "16,3")
case("number_leading_space", put(PLANE, 2, b"liars= 0"), "16,2")
case("number_trailing_space", put(DIAL, 3, b"grain=1 "), "16,3")
case("number_space_after_comma", put(DIAL, 4, b"start=0, 20"), "16,4")
case("number_tab", put(DIAL, 5, b"arc=5,\t10"), "16,5")
case("number_cr", put(PLANE, 4, b"start=0,0,3,3\r"), "16,4")
case("number_cr_on_end", put(PLANE, 7, b"end=2\r"), "16,7")
case("number_nul", put(DIAL, 6, b"arc=8,10\x00"), "16,6")
case("number_arabic_indic_digits", put(PLANE, 3, b"grain=" + "\u0661".encode()), "16,3")
case("number_fullwidth_digits", put(DIAL, 5, b"arc=5," + "\uff11\uff10".encode()), "16,5")
case("number_superscript_latin1", put(PLANE, 3, b"grain=\xb9"), "16,3")
case("number_minus_alone", put(PLANE, 5, b"ring=-,0,0,3"), "16,5")
case("number_two_minus", put(PLANE, 5, b"ring=--1,0,0,3"), "16,5")
case("number_minus_after", put(PLANE, 6, b"cone=0,0,1-,0,1,1"), "16,6")
case("number_hexadecimal", put(PLANE, 3, b"grain=0x1"), "16,3")
case("number_exponent", put(PLANE, 3, b"grain=1e0"), "16,3")
case("number_underscore", put(DIAL, 4, b"start=0,2_0"), "16,4")
case("number_second_equals", put(PLANE, 3, b"grain=1="), "16,3")
case("number_semicolon", put(PLANE, 4, b"start=0,0,3;3"), "16,4")
case("word_empty_middle", put(PLANE, 4, b"start=0,,3,3"), "16,4")
case("word_empty_last", put(DIAL, 5, b"arc=5,"), "16,5")
case("word_empty_first", put(DIAL, 6, b"arc=,10"), "16,6")
case("comma_after_last_value", put(PLANE, 5, b"ring=0,0,0,3,"), "16,5")

for n, sort in ((2, "liars"), (3, "grain"), (4, "start"), (5, "first_reading"),
                (6, "later_reading"), (7, "end")):
    for sheet, base in BASES:
        key = base[n - 1].partition(b"=")[0]
        if n in (2, 3):
            if sheet == "plane":
                case("%s_value_empty" % sort, put(base, n, key + b"="), "16,%d" % n)
                case("%s_value_two_numbers" % sort, put(base, n, key + b"=1,1"), "16,%d" % n)
        else:
            case("%s_%s_value_empty" % (sheet, sort), put(base, n, key + b"="), "16,%d" % n)
            case("%s_%s_one_value_more" % (sheet, sort), put(base, n, base[n - 1] + b",1"), "16,%d" % n)
            if n != 7:
                case("%s_%s_one_value_less" % (sheet, sort),
                     put(base, n, base[n - 1].rpartition(b",")[0]), "16,%d" % n)

# ------------------------------------------------------------ liars

case("liars_minus_1", put(PLANE, 2, b"liars=-1"), "16,2")
case("liars_minus_1_dial", put(DIAL, 2, b"liars=-1"), "16,2")
case("liars_65536", put(PLANE, 2, b"liars=65536"), "16,2")
case("liars_65536_dial", put(DIAL, 2, b"liars=65536"), "16,2")
case("liars_2147483648", put(PLANE, 2, b"liars=2147483648"), "16,2")
case("liars_4294967296", put(PLANE, 2, b"liars=4294967296"), "16,2")
case("liars_huge", put(PLANE, 2, b"liars=" + b"9" * 40), "16,2")
case("liars_65536_and_later_faults", lines([b"sheet=plane", b"liars=65536", b"grain=0", b"end=0"]), "16,2")
case("liars_65535", put(PLANE, 2, b"liars=65535"), "8,2")
case("liars_65535_dial", put(DIAL, 2, b"liars=65535"), "8,2")
case("liars_equal_to_count", put(PLANE, 2, b"liars=2"), "8,2")
case("liars_equal_to_count_dial", put(DIAL, 2, b"liars=2"), "8,2")
case("liars_one_below_count", put(PLANE, 2, b"liars=1"))
case("liars_one_below_count_dial", put(DIAL, 2, b"liars=1"),
     "out=0,0,5\nout=1,18,2\nin=2,5,13\nsum=13,7,0,1\n")
THREE = [b"sheet=plane", b"liars=2", b"grain=1", b"start=0,0,3,3", b"ring=0,0,0,1",
         b"ring=3,3,0,1", b"ring=0,3,0,0", b"end=3"]
case("liars_2_of_3", lines(THREE))
case("liars_3_of_3", put(THREE, 2, b"liars=3"), "8,2")
LIARS9 = PLANE[:1] + [b"liars=9"] + PLANE[2:]
LIARS9_DIAL = DIAL[:1] + [b"liars=9"] + DIAL[2:]
case("fault_8_and_grain_out_of_range", put(LIARS9, 3, b"grain=0"), "2,3")
case("fault_8_and_start_not_a_piece", put(LIARS9, 4, b"start=3,0,0,3"), "1,4")
case("fault_8_and_bad_ring", put(LIARS9, 5, b"ring=0,0,3,2"), "4,5")
case("fault_8_and_malformed_later_reading", put(LIARS9_DIAL, 6, b"arc=8"), "16,6")
case("fault_8_and_end_wrong", put(LIARS9, 7, b"end=3"), "17,7")
case("fault_8_and_end_wrong_dial", put(LIARS9_DIAL, 7, b"end=0"), "17,7")
case("fault_8_and_end_unended", cut(LIARS9, 7), "16,7")
case("fault_8_and_end_missing", lines(LIARS9[:6]), "15,7")
case("fault_8_and_line_after_end", lines(LIARS9) + b"\n", "15,8")
case("fault_8_would_be_mended_by_wrong_end", lines(PLANE[:1] + [b"liars=2"] + PLANE[2:6] + [b"end=3"]), "17,7")

# ------------------------------------------------------------ grain

case("grain_0", put(PLANE, 3, b"grain=0"), "2,3")
case("grain_0_dial", put(DIAL, 3, b"grain=0"), "2,3")
case("grain_65", put(PLANE, 3, b"grain=65"), "2,3")
case("grain_65_dial", put(DIAL, 3, b"grain=65"), "2,3")
case("grain_minus_1", put(PLANE, 3, b"grain=-1"), "2,3")
case("grain_257", put(PLANE, 3, b"grain=257"), "2,3")
case("grain_65537", put(DIAL, 3, b"grain=65537"), "2,3")
case("grain_2147483647", put(PLANE, 3, b"grain=2147483647"), "2,3")
case("grain_2147483648", put(PLANE, 3, b"grain=2147483648"), "16,3")
case("grain_minus_2147483648", put(PLANE, 3, b"grain=-2147483648"), "2,3")
case("grain_minus_2147483649", put(PLANE, 3, b"grain=-2147483649"), "16,3")
case("grain_4294967297", put(PLANE, 3, b"grain=4294967297"), "16,3")
case("grain_18446744073709551617", put(DIAL, 3, b"grain=18446744073709551617"), "16,3")
case("grain_64", put(PLANE, 3, b"grain=64"))
case("grain_64_dial", put(DIAL, 3, b"grain=64"), "out=0,0,8\nout=1,15,5\nin=2,8,7\nsum=7,13,0,1\n")

# ------------------------------------------------------------ start

FAR = [b"sheet=plane", b"liars=0", b"grain=1", b"start=0,0,3,3", b"ring=0,0,32767,32767", b"end=1"]
case("start_whole_plane", put(FAR, 4, b"start=0,0,4095,4095"), "out=0,0,0,4095,4095\nsum=0,16777216,0,1\n")
case("start_last_cell_of_plane", put(FAR, 4, b"start=4095,4095,4095,4095"),
     "out=0,4095,4095,4095,4095\nsum=0,1,0,1\n")
case("start_x1_4096", put(PLANE, 4, b"start=0,0,4096,0"), "1,4")
case("start_y1_4096", put(PLANE, 4, b"start=0,0,0,4096"), "1,4")
case("start_x0_4096", put(PLANE, 4, b"start=4096,0,4096,0"), "1,4")
case("start_x0_minus_1", put(PLANE, 4, b"start=-1,0,3,3"), "1,4")
case("start_y0_minus_1", put(PLANE, 4, b"start=0,-1,3,3"), "1,4")
case("start_x0_above_x1", put(PLANE, 4, b"start=4,0,3,3"), "1,4")
case("start_y0_above_y1", put(PLANE, 4, b"start=0,4,3,3"), "1,4")
case("start_x1_65536_plus_3", put(PLANE, 4, b"start=0,0,65539,3"), "1,4")
case("start_number_beyond_32_bits", put(PLANE, 4, b"start=0,0,3,2147483648"), "16,4")
case("start_number_beyond_32_bits_dial", put(DIAL, 4, b"start=0,-2147483649"), "16,4")
case("start_three_values_one_too_large", put(PLANE, 4, b"start=0,0,4096"), "16,4")
case("start_malformed_and_not_a_piece", put(PLANE, 4, b"start=9999,0,0,x"), "16,4")
case("start_dial_value_on_plane", put(PLANE, 4, b"start=0,20"), "16,4")
case("start_plane_value_on_dial", put(DIAL, 4, b"start=0,0,3,3"), "16,4")
ALL_DIAL = [b"sheet=dial", b"liars=0", b"grain=1", b"start=3599,3600", b"arc=3599,3600", b"end=1"]
case("start_3599_3600", lines(ALL_DIAL), "in=0,3599,3600\nsum=3600,0,0,1\n")
case("start_3599_1", put(ALL_DIAL, 4, b"start=3599,1"), "in=0,3599,1\nsum=1,0,0,1\n")
case("start_3600_1", put(DIAL, 4, b"start=3600,1"), "1,4")
case("start_minus_1_1", put(DIAL, 4, b"start=-1,1"), "1,4")
case("start_0_0", put(DIAL, 4, b"start=0,0"), "1,4")
case("start_0_3601", put(DIAL, 4, b"start=0,3601"), "1,4")
case("start_0_minus_1", put(DIAL, 4, b"start=0,-1"), "1,4")

# ------------------------------------------------------------ rings

RING = [b"sheet=plane", b"liars=0", b"grain=1", b"start=0,0,3,3", b"ring=0,0,0,3", b"end=1"]
for name, text, fault in (
        ("beacon_x_16384", b"ring=16384,0,0,3", 3), ("beacon_y_16384", b"ring=0,16384,0,3", 3),
        ("beacon_x_minus_16385", b"ring=-16385,0,0,3", 3), ("beacon_y_minus_16385", b"ring=0,-16385,0,3", 3),
        ("beacon_x_65536", b"ring=65536,0,0,3", 3),
        ("beacon_and_radii_bad", b"ring=16384,0,4,3", 3),
        ("a_above_b", b"ring=0,0,4,3", 4), ("a_minus_1", b"ring=0,0,-1,3", 4),
        ("b_minus_1", b"ring=0,0,0,-1", 4), ("b_32768", b"ring=0,0,0,32768", 4),
        ("a_and_b_32768", b"ring=0,0,32768,32768", 4), ("b_2147483647", b"ring=0,0,0,2147483647", 4),
        ("b_2147483648", b"ring=0,0,0,2147483648", 16),
        ("malformed_and_beacon_bad", b"ring=99999,0,x,3", 16),
        ("three_values_beacon_bad", b"ring=99999,0,3", 16)):
    case("ring_%s" % name, put(RING, 5, text), "%d,5" % fault)
case("ring_later_beacon_bad", put(PLANE, 6, b"ring=0,16384,0,3"), "3,6")
case("ring_later_radii_bad", put(PLANE, 6, b"ring=0,0,3,2"), "4,6")
case("ring_sixteenth_radii_bad", lines(PLANE[:4] + [b"ring=0,0,0,3"] * 15 + [b"ring=0,0,3,2", b"end=16"]), "4,20")
case("ring_beacon_16383_radii_0_32767", put(RING, 5, b"ring=16383,16383,0,32767"),
     "in=0,0,0,3,3\nsum=16,0,0,1\n")
case("ring_beacon_minus_16384", put(RING, 5, b"ring=-16384,-16384,23171,23173"))
case("ring_beacon_16383_minus_16384", put(RING, 5, b"ring=16383,-16384,23168,23169"))
case("ring_beacon_corner_farthest_cell", lines([b"sheet=plane", b"liars=0", b"grain=1",
     b"start=4094,4094,4095,4095", b"ring=-16384,-16384,28961,28962", b"end=1"]))
case("ring_radii_0_0", put(RING, 5, b"ring=2,1,0,0"))
case("ring_radii_0_0_beacon_outside_start", put(RING, 5, b"ring=-1,0,0,0"), "out=0,0,0,3,3\nsum=0,16,0,1\n")
case("ring_a_equal_b", lines([b"sheet=plane", b"liars=0", b"grain=1", b"start=0,0,5,5", b"ring=0,0,5,5", b"end=1"]))
case("ring_radii_32767_32767", put(RING, 5, b"ring=0,0,32767,32767"), "out=0,0,0,3,3\nsum=0,16,0,1\n")
case("ring_hole_in_the_middle", lines([b"sheet=plane", b"liars=0", b"grain=1", b"start=0,0,8,8",
                                       b"ring=4,4,1,40", b"end=1"]))
case("ring_hole_in_the_middle_grain_8", lines([b"sheet=plane", b"liars=0", b"grain=8", b"start=0,0,8,8",
                                               b"ring=4,4,2,40", b"end=1"]))

# ------------------------------------------------------------ cones

CONE = [b"sheet=plane", b"liars=0", b"grain=1", b"start=0,0,3,3", b"cone=0,0,1,0,1,1", b"end=1"]
for name, text, fault in (
        ("beacon_x_16384", b"cone=16384,0,1,0,1,1", 3), ("beacon_y_minus_16385", b"cone=0,-16385,1,0,1,1", 3),
        ("ux_2048", b"cone=0,0,2048,0,1,1", 3), ("uy_minus_2049", b"cone=0,0,1,-2049,1,1", 3),
        ("vx_minus_2049", b"cone=0,0,1,0,-2049,1", 3), ("vy_2048", b"cone=0,0,1,0,1,2048", 3),
        ("direction_and_product_bad", b"cone=0,0,2048,0,1,0", 3),
        ("beacon_and_product_bad", b"cone=0,16384,1,0,1,0", 3),
        ("product_0", b"cone=0,0,1,1,2,2", 5), ("product_0_all_zero", b"cone=0,0,0,0,0,0", 5),
        ("product_minus_1", b"cone=0,0,1,1,1,0", 5),
        ("product_most_negative", b"cone=0,0,-2048,-2048,-2048,2047", None),
        ("number_beyond_32_bits", b"cone=0,0,1,0,1,2147483648", 16),
        ("five_values_direction_bad", b"cone=0,0,2048,0,1", 16)):
    if fault is None:
        # ux*vy - uy*vx = -2048*2047 - 2048*2048 < 0
        fault = 5
    case("cone_%s" % name, put(CONE, 5, text), "%d,5" % fault)
case("cone_later_beacon_bad", put(PLANE, 6, b"cone=-16385,0,1,0,1,1"), "3,6")
case("cone_later_direction_bad", put(PLANE, 6, b"cone=0,0,1,0,1,2048"), "3,6")
case("cone_later_product_bad", put(PLANE, 6, b"cone=0,0,1,0,1,0"), "5,6")
case("cone_45_degrees", lines(CONE))
case("cone_product_1", put(CONE, 5, b"cone=0,0,3,2,4,3"))
case("cone_directions_minus_2048_and_2047", put(CONE, 5, b"cone=1,1,-2048,2047,-2048,-2048"))
case("cone_directions_2047_minus_2048", put(CONE, 5, b"cone=2,2,2047,-2048,2047,2047"))
case("cone_far_beacon", put(CONE, 5, b"cone=-16380,16383,1,-1,2047,-2046"))
case("cone_beacon_16383_directions_minus_2048", lines([b"sheet=plane", b"liars=0", b"grain=1", b"start=0,0,11,2",
     b"cone=16383,16383,-2048,-2048,-2047,-2048", b"end=1"]))
case("cone_rows_judged_by_columns_just_kept", lines([b"sheet=plane", b"liars=1", b"grain=1", b"start=0,0,5,8",
     b"cone=4,2,0,6,-8,9", b"cone=-12,-1,7,3,-19,15", b"cone=7,10,-1,0,2,-1", b"end=3"]))
case("rows_judged_by_columns_just_kept", lines([b"sheet=plane", b"liars=1", b"grain=1", b"start=0,0,7,9",
     b"ring=-21,-16,24,42", b"cone=2,4,0,1,-2,2", b"ring=26,30,25,35", b"ring=58,27,55,66", b"end=4"]))
case("columns_judged_before_rows", lines([b"sheet=plane", b"liars=1", b"grain=1", b"start=0,0,8,12",
     b"ring=40,7,40,46", b"cone=6,4,-3,1,-1,0", b"ring=25,58,54,64", b"end=3"]))
case("cone_points_away", put(CONE, 5, b"cone=-16384,-16384,-1,0,0,-1"), "out=0,0,0,3,3\nsum=0,16,0,1\n")
case("cone_holds_whole_start", put(CONE, 5, b"cone=-16384,-16384,2047,0,0,2047"), "in=0,0,0,3,3\nsum=16,0,0,1\n")

# ------------------------------------------------------------ arcs

ARC = [b"sheet=dial", b"liars=0", b"grain=1", b"start=0,20", b"arc=5,10", b"end=1"]
for name, text, fault in (
        ("3600_1", b"arc=3600,1", 1), ("minus_1_1", b"arc=-1,1", 1), ("0_0", b"arc=0,0", 1),
        ("0_3601", b"arc=0,3601", 1), ("0_minus_1", b"arc=0,-1", 1), ("65536_1", b"arc=65536,1", 1),
        ("beyond_32_bits", b"arc=0,2147483648", 16), ("malformed_and_not_a_piece", b"arc=3600,x", 16)):
    case("arc_%s" % name, put(ARC, 5, text), "%d,5" % fault)
case("arc_later_not_a_piece", put(DIAL, 6, b"arc=0,0"), "1,6")
case("arc_whole_dial_from_3599", put(ARC, 5, b"arc=3599,3600"), "in=0,0,20\nsum=20,0,0,1\n")
case("arc_one_point", put(ARC, 5, b"arc=7,1"), "out=0,0,7\nout=1,8,12\nin=2,7,1\nsum=1,19,0,1\n")
case("arc_misses_start", put(ARC, 5, b"arc=20,3580"), "out=0,0,20\nsum=0,20,0,1\n")

# ------------------------------------------------------------ end

for name, text, fault in (("leading_zero", b"end=02", 16), ("plus", b"end=+2", 16),
                          ("two_values", b"end=2,2", 16), ("beyond_32_bits", b"end=2147483648", 16),
                          ("0", b"end=0", 17), ("minus_1", b"end=-1", 17), ("1_of_2", b"end=1", 17),
                          ("3_of_2", b"end=3", 17), ("258_of_2", b"end=258", 17),
                          ("2147483647", b"end=2147483647", 17)):
    case("end_%s" % name, put(PLANE, 7, text), "%d,7" % fault)
case("end_zero_one", put(RING, 6, b"end=01"), "16,6")
case("end_1_of_2_dial", put(DIAL, 7, b"end=1"), "17,7")
case("end_3_of_2_dial", put(DIAL, 7, b"end=3"), "17,7")
case("end_wrong_then_line_after_end", put(PLANE, 7, b"end=1") + b"ring=0,0,0,3\n", "17,7")
case("end_malformed_then_line_after_end", put(PLANE, 7, b"end=x") + b"\n", "16,7")

# ------------------------------------------------------------ the first faulty line decides

case("first_line_decides_2_before_1", lines([b"sheet=plane", b"liars=0", b"grain=0", b"start=9,9,0,0",
                                             b"ring=0,0,0,3", b"end=1"]), "2,3")
case("first_line_decides_16_before_1", lines([b"sheet=dial", b"liars=0", b"grain=x", b"start=0,0",
                                              b"arc=0,0", b"end=1"]), "16,3")
case("first_line_decides_5_before_3", lines(PLANE[:4] + [b"cone=0,0,1,0,1,0", b"ring=16384,0,0,3", b"end=2"]), "5,5")
case("first_line_decides_4_before_15", lines(PLANE[:4] + [b"ring=0,0,3,2", b"", b"end=1"]), "4,5")
case("first_line_decides_1_before_17", lines(DIAL[:4] + [b"arc=3600,1", b"end=7"]), "1,5")

# ------------------------------------------------------------ sixteen and seventeen readings

R16 = PLANE[:4] + [b"ring=0,0,0,3"] * 8 + [b"cone=0,0,1,0,1,1"] * 8
A16 = DIAL[:4] + [b"arc=5,10"] * 16
case("sixteen_readings_plane", lines(R16 + [b"end=16"]))
case("sixteen_readings_dial", lines(A16 + [b"end=16"]), "out=0,0,5\nout=1,15,5\nin=2,5,10\nsum=10,10,0,1\n")
case("sixteen_readings_liars_15", lines(R16[:1] + [b"liars=15"] + R16[2:] + [b"end=16"]))
case("sixteen_readings_liars_16", lines(R16[:1] + [b"liars=16"] + R16[2:] + [b"end=16"]), "8,2")
case("sixteen_readings_end_15", lines(R16 + [b"end=15"]), "17,21")
case("sixteen_readings_end_17", lines(A16 + [b"end=17"]), "17,21")
case("sixteen_readings_end_malformed", lines(R16 + [b"end=016"]), "16,21")
case("sixteen_readings_end_unended", lines(R16) + b"end=16", "16,21")
case("sixteen_readings_end_missing", lines(R16), "15,21")
case("sixteen_readings_end_missing_dial", lines(A16), "15,21")
case("sixteen_readings_empty_line", lines(R16 + [b"", b"end=16"]), "15,21")
for name, text, fault in (
        ("ring", b"ring=0,0,0,3", 6), ("cone", b"cone=0,0,1,0,1,1", 6),
        ("ring_beacon_bad", b"ring=16384,0,0,3", 3), ("ring_radii_bad", b"ring=0,0,3,2", 4),
        ("ring_beacon_and_radii_bad", b"ring=16384,0,3,2", 3),
        ("cone_direction_bad", b"cone=0,0,2048,0,1,1", 3), ("cone_product_bad", b"cone=0,0,1,0,1,0", 5),
        ("ring_malformed", b"ring=0,0,0,03", 6), ("ring_empty", b"ring=", 6),
        ("ring_wrong_count", b"ring=0,0,3", 6), ("cone_beyond_32_bits", b"cone=0,0,1,0,1,2147483648", 6),
        ("ring_malformed_and_beacon_bad", b"ring=99999,0,x,3", 6),
        ("arc_does_not_fit", b"arc=5,10", 15), ("arc_does_not_fit_bad_value", b"arc=3600,x", 15),
        ("unknown_key", b"box=0,0,3,3", 15), ("ring_without_equals", b"ring", 15),
        ("start_not_due", b"start=0,0,3,3", 15)):
    case("seventeenth_%s" % name, lines(R16 + [text, b"end=17"]), "%d,21" % fault)
for name, text, fault in (
        ("arc", b"arc=5,10", 6), ("arc_not_a_piece", b"arc=3600,1", 1), ("arc_malformed", b"arc=5,+10", 6),
        ("ring_does_not_fit_dial", b"ring=0,0,0,3", 15), ("unknown_key_dial", b"Arc=5,10", 15)):
    case("seventeenth_%s" % name, lines(A16 + [text, b"end=17"]), "%d,21" % fault)
case("seventeenth_ring_unended", lines(R16) + b"ring=0,0,0,3", "6,21")
case("seventeenth_ring_unended_beacon_bad", lines(R16) + b"ring=16384,0,0,3", "6,21")
case("seventeenth_cone_unended_product_bad", lines(R16) + b"cone=0,0,1,0,1,0", "6,21")
case("seventeenth_ring_unended_malformed", lines(R16) + b"ring=x", "6,21")
case("seventeenth_arc_unended_not_a_piece", lines(A16) + b"arc=0,0", "6,21")
case("seventeenth_arc_does_not_fit_unended", lines(R16) + b"arc=5,10", "15,21")
case("seventeenth_unknown_key_unended", lines(R16) + b"rin", "15,21")
case("seventeenth_ring_last_line", lines(R16 + [b"ring=0,0,0,3"]), "6,21")
case("seventeenth_ring_end_16", lines(R16 + [b"ring=0,0,0,3", b"end=16"]), "6,21")
case("seventeenth_and_eighteenth_ring", lines(R16 + [b"ring=0,0,0,3"] * 2 + [b"end=18"]), "6,21")
case("seventeenth_ring_and_fault_8", lines(R16[:1] + [b"liars=99"] + R16[2:] + [b"ring=0,0,0,3", b"end=17"]), "6,21")
case("seventeenth_after_bad_sixteenth", lines(R16[:-1] + [b"cone=0,0,1,0,1,0", b"ring=0,0,0,3", b"end=17"]), "5,20")

# ------------------------------------------------------------ good files: plane

case("one_cell_inside", lines([b"sheet=plane", b"liars=0", b"grain=1", b"start=3,4,3,4", b"ring=0,0,5,5", b"end=1"]),
     "in=0,3,4,3,4\nsum=1,0,0,1\n")
case("one_cell_outside", lines([b"sheet=plane", b"liars=0", b"grain=64", b"start=3,3,3,3", b"ring=0,0,5,5", b"end=1"]),
     "out=0,3,3,3,3\nsum=0,1,0,1\n")
case("one_cell_inside_one_of_two", lines([b"sheet=plane", b"liars=1", b"grain=1", b"start=3,4,3,4",
     b"ring=0,0,5,5", b"cone=3,5,1,0,0,1", b"end=2"]), "in=0,3,4,3,4\nsum=1,0,0,1\n")
case("one_point_inside_dial", lines([b"sheet=dial", b"liars=0", b"grain=1", b"start=3599,1", b"arc=3598,4", b"end=1"]),
     "in=0,3599,1\nsum=1,0,0,1\n")
case("one_point_outside_dial", lines([b"sheet=dial", b"liars=0", b"grain=2", b"start=2,1", b"arc=3598,4", b"end=1"]),
     "out=0,2,1\nsum=0,1,0,1\n")
case("one_row", lines([b"sheet=plane", b"liars=0", b"grain=1", b"start=0,7,30,7", b"ring=15,0,9,12", b"end=1"]))
case("one_column", lines([b"sheet=plane", b"liars=0", b"grain=1", b"start=7,0,7,30", b"ring=0,15,9,12", b"end=1"]))
case("one_point_left_goes_back", lines([b"sheet=plane", b"liars=0", b"grain=8", b"start=0,0,4,4",
                                        b"ring=2,2,1,9", b"end=1"]))

TRIO = [b"ring=0,0,9,14", b"ring=20,0,10,15", b"cone=10,0,1,2,-1,2"]


def trio(q, grain, readings=TRIO, start=b"start=0,0,19,15"):
    return lines([b"sheet=plane", b"liars=%d" % q, b"grain=%d" % grain, start] + list(readings)
                 + [b"end=%d" % len(readings)])


for g in range(1, 9):
    case("two_rings_and_cone_grain_%d" % g, trio(0, g))
case("two_rings_and_cone_grain_64", trio(0, 64))
for g in (6, 8):
    case("two_rings_and_cone_liars_1_grain_%d" % g, trio(1, g))
case("two_rings_and_cone_liars_2_grain_4", trio(2, 4))
case("rearranged_1_3_2", trio(0, 2, [TRIO[0], TRIO[2], TRIO[1]]))
case("rearranged_2_1_3", trio(0, 2, [TRIO[1], TRIO[0], TRIO[2]]))
case("rearranged_3_2_1", trio(0, 2, [TRIO[2], TRIO[1], TRIO[0]]))
case("rearranged_liars_1_3_1_2", trio(1, 6, [TRIO[2], TRIO[0], TRIO[1]]))
case("rearranged_liars_1_2_3_1", trio(1, 6, [TRIO[1], TRIO[2], TRIO[0]]))
case("shed_depth_q_plus_1", lines([b"sheet=plane", b"liars=1", b"grain=1", b"start=0,0,5,5", b"ring=0,0,0,4",
     b"ring=5,0,0,4", b"ring=0,5,0,4", b"ring=5,5,0,4", b"end=4"]))
case("same_ring_twice_liars_1", lines([b"sheet=plane", b"liars=1", b"grain=1", b"start=0,0,3,3", b"ring=0,0,0,3",
     b"ring=0,0,0,3", b"end=2"]))
case("corner_of_plane", lines([b"sheet=plane", b"liars=0", b"grain=2", b"start=4088,4088,4095,4095",
     b"ring=4100,4100,8,12", b"cone=4084,4095,1,-1,1,0", b"end=2"]))
case("whole_plane_grain_64_quarter_disc", lines([b"sheet=plane", b"liars=0", b"grain=64", b"start=0,0,4095,4095",
     b"ring=0,0,0,150", b"end=1"]))

# ------------------------------------------------------------ good files: dial

GAP = [b"sheet=dial", b"liars=1", b"grain=1", b"start=0,64", b"arc=10,5", b"arc=20,5", b"end=2"]
for g in (1, 4, 5, 64):
    case("dial_gap_of_5_grain_%d" % g, put(GAP, 3, b"grain=%d" % g))
WRAP = [b"arc=3500,200", b"arc=3550,30", b"arc=3590,40", b"arc=3595,10", b"arc=20,100"]


def wrap(q, grain, start, readings=WRAP):
    return lines([b"sheet=dial", b"liars=%d" % q, b"grain=%d" % grain, b"start=" + start]
                 + list(readings) + [b"end=%d" % len(readings)])


case("dial_wrap_liars_2", wrap(2, 1, b"0,3600"))
case("dial_wrap_liars_2_from_3599", wrap(2, 1, b"3599,3600"))
case("dial_wrap_liars_2_from_1800", wrap(2, 1, b"1800,3600"))
case("dial_wrap_liars_2_start_3580_60", wrap(2, 1, b"3580,60"))
case("dial_wrap_liars_3", wrap(3, 1, b"0,3600"))
case("dial_wrap_liars_4", wrap(4, 1, b"0,3600"))
case("dial_wrap_liars_4_grain_64", wrap(4, 64, b"1700,3600"))
case("dial_wrap_liars_0", wrap(0, 1, b"0,3600"))
case("dial_rearranged_liars_2", wrap(2, 1, b"0,3600", [WRAP[4], WRAP[2], WRAP[0], WRAP[3], WRAP[1]]))
case("dial_rearranged_liars_4", wrap(4, 1, b"0,3600", [WRAP[3], WRAP[1], WRAP[4], WRAP[0], WRAP[2]]))
case("dial_arc_wraps_on_whole_dial", lines([b"sheet=dial", b"liars=0", b"grain=1", b"start=0,3600",
                                            b"arc=3598,4", b"end=1"]))
case("dial_arc_wraps_on_wrapping_start", lines([b"sheet=dial", b"liars=0", b"grain=1", b"start=3590,20",
                                                b"arc=3598,4", b"end=1"]),
     "out=0,3590,8\nout=1,2,8\nin=2,3598,4\nsum=4,16,0,1\n")
case("dial_sixteen_scattered_liars_15", lines([b"sheet=dial", b"liars=15", b"grain=1", b"start=0,3600"]
     + [b"arc=%d,%d" % ((i * 227) % 3600, 3 + i) for i in range(16)] + [b"end=16"]), None)

# ------------------------------------------------------------ large ones

case("large_ring_400_grain_1", lines([b"sheet=plane", b"liars=0", b"grain=1", b"start=0,0,399,399",
     b"ring=200,200,100,180", b"end=1"]), None, "large")
case("large_three_rings_liars_1_grain_1", lines([b"sheet=plane", b"liars=1", b"grain=1", b"start=1000,2000,1999,2999",
     b"ring=1250,2250,200,420", b"ring=1750,2370,150,370", b"ring=1500,2750,220,300", b"end=3"]), None, "large")
case("large_whole_plane_grain_64", lines([b"sheet=plane", b"liars=0", b"grain=64", b"start=0,0,4095,4095",
     b"ring=1000,1000,500,1500", b"ring=2500,1700,300,1400", b"end=2"]), None, "large")
case("large_whole_plane_cones_grain_32", lines([b"sheet=plane", b"liars=1", b"grain=32", b"start=0,0,4095,4095",
     b"ring=-16384,2000,18000,18700", b"cone=16383,-16384,-1500,2047,-1700,2047",
     b"cone=0,0,3,2,2,3", b"end=3"]), None, "large")

# ------------------------------------------------------------ the second table

MORE = set("""
length_4096_empty_lines length_4096_fault_2_on_line_3
dial_unended_grain_out_of_range plane_unended_start_not_a_piece
unended_unknown_key_on_liars_line unended_unknown_key_on_start_line unended_unknown_key_where_end_due
unended_due_key_without_equals_ring unended_due_key_without_equals_end unended_second_end
key_capital_sheet key_trailing_space_liars key_with_cr_start key_empty_first_reading key_capital_arc_later
key_plural_later_reading key_prefix_of_end key_colon_for_equals key_not_utf8
no_equals_liars no_equals_start no_equals_cone no_equals_value_only
arc_after_end_dial second_file_after_end nul_after_end comment_after_end
missing_readings_end_malformed order_ring_before_start order_liars_among_readings
order_start_among_readings_dial order_sheet_where_end_due not_due_with_bad_value_start_line
arc_on_plane_first cone_on_dial_first_bad_value cone_on_dial_later unknown_key_first_reading_dial
sheet_name_leading_space sheet_name_trailing_space sheet_name_nul sheet_name_number sheet_name_two_names
cr_for_lf
number_leading_space number_space_after_comma number_tab number_cr_on_end number_fullwidth_digits
number_superscript_latin1 number_two_minus number_minus_after number_hexadecimal number_exponent
number_underscore number_second_equals number_semicolon word_empty_last word_empty_first comma_after_last_value
liars_value_two_numbers grain_value_two_numbers plane_start_value_empty plane_start_one_value_less
dial_start_one_value_more dial_start_one_value_less plane_first_reading_value_empty
plane_first_reading_one_value_less dial_first_reading_value_empty dial_first_reading_one_value_more
plane_later_reading_value_empty plane_later_reading_one_value_more dial_later_reading_value_empty
dial_later_reading_one_value_less plane_end_one_value_more dial_end_value_empty
liars_minus_1_dial liars_65536_dial liars_2147483648 liars_huge
fault_8_and_grain_out_of_range fault_8_and_start_not_a_piece fault_8_and_end_wrong_dial
fault_8_and_end_unended fault_8_would_be_mended_by_wrong_end
grain_257 grain_65537 grain_18446744073709551617
start_last_cell_of_plane start_y1_4096 start_x0_4096 start_y0_minus_1 start_x1_65536_plus_3
start_number_beyond_32_bits_dial start_malformed_and_not_a_piece start_3599_1 start_0_minus_1
ring_beacon_y_16384 ring_beacon_x_65536 ring_b_minus_1 ring_a_and_b_32768 ring_b_2147483647
ring_three_values_beacon_bad ring_beacon_16383_minus_16384 ring_radii_0_0_beacon_outside_start
cone_beacon_and_product_bad cone_product_0_all_zero cone_product_most_negative cone_number_beyond_32_bits
cone_five_values_direction_bad cone_later_beacon_bad cone_directions_2047_minus_2048
cone_points_away cone_holds_whole_start
arc_0_minus_1 arc_65536_1 arc_beyond_32_bits arc_malformed_and_not_a_piece arc_misses_start
end_leading_zero end_plus end_two_values end_258_of_2 end_2147483647 end_3_of_2_dial
end_malformed_then_line_after_end first_line_decides_5_before_3 first_line_decides_1_before_17
sixteen_readings_liars_16 sixteen_readings_end_17 sixteen_readings_end_malformed
sixteen_readings_end_missing_dial sixteen_readings_empty_line
seventeenth_ring_empty seventeenth_ring_malformed_and_beacon_bad seventeenth_ring_beacon_and_radii_bad
seventeenth_arc_does_not_fit_bad_value seventeenth_start_not_due seventeenth_unknown_key_dial
seventeenth_cone_unended_product_bad seventeenth_ring_unended_malformed seventeenth_unknown_key_unended
seventeenth_ring_end_16 seventeenth_and_eighteenth_ring seventeenth_after_bad_sixteenth
one_column rearranged_2_1_3 rearranged_liars_1_2_3_1 same_ring_twice_liars_1
dial_gap_of_5_grain_1 dial_gap_of_5_grain_64 dial_wrap_liars_2_from_3599 dial_wrap_liars_4
dial_wrap_liars_4_grain_64 dial_wrap_liars_0 dial_rearranged_liars_4 large_whole_plane_cones_grain_32
""".split())
