#!/usr/bin/env python3
"""Netlist files with the line that `check` must print, each written out by hand from docs/netlist.md.

usage: cases.py                 print the cases as Rust tuples (name, text, newlines that follow it, line)
       cases.py --check         compare them with the second reader
       cases.py --check FILE    compare them with the program FILE, run as `FILE check NETLIST`
       cases.py --stdin         print the standard input of the program netlist_cases: NAME TEXT, escaped
       cases.py --stdout        print what it must write: NAME: LINE, and how many cases there are
"""

import os
import re
import subprocess
import sys
import tempfile

import second_reader

CASES = []  # (name, text, newlines that follow it, line)


def case(name, line, *lines, raw=None, newlines=0):
    """A case of these lines, or of raw bytes."""
    text = raw if raw is not None else text_of(*lines)
    assert all(name != other[0] for other in CASES), name
    CASES.append((name, text, newlines, line))


def text_of(*lines):
    return "".join(line + "\n" for line in lines).encode("latin-1")


EXAMPLE = [
    "N 2 2 4", "B top 0 1", "B io 1 1", "P a line 4", "W -.0 a.0", "W a.0 -.0", "E", "P g gen 4 7 1", "W g.0 io.0", "W io.0 -.0", "E",
]
TINY = ["N 1 0 0", "B a 0 0", "E"]  # 8 + 8 + 2 bytes
TINY_TEXT = text_of(*TINY)


# Accepted, and bytes after the board's E.

case("example", "accepted 2 2 4 98", *EXAMPLE)
case("tiny", "accepted 1 0 0 18", *TINY)
case("all_kinds", "accepted 1 3 3 84",
     "N 1 3 3", "B t 1 1", "P g gen 1 0 0", "P u uart 1", "P l line 0", "W g.0 u.0", "W u.1 l.0", "W -.0 u.0", "E")
case("after_end_an_empty_line", "accepted 1 0 0 18", *TINY, "")
case("after_end_a_long_line", "accepted 1 0 0 18", *TINY, "x" * 81)
case("after_end_a_second_end", "accepted 1 0 0 18", *TINY, "E")
case("after_end_a_second_board", "accepted 1 0 0 18", *TINY, "N 9 9 9", "B a 0 0")
case("after_end_a_bad_wire", "accepted 1 0 0 18", *TINY, "W a.0 a.0")
case("after_end_bytes_of_no_field", "accepted 1 0 0 18", *TINY, "\x00\x7f\xff  ")
case("after_end_no_newline", "refused 1 line 0 field 0 text", raw=TINY_TEXT + b"x")
case("after_end_newlines_to_32768", "accepted 1 0 0 18", *TINY, newlines=32750)
case("after_end_newlines_to_32769", "refused 1 line 0 field 0 text", *TINY, newlines=32751)


# Question 1.

case("q1_empty", "refused 1 line 0 field 0 text", raw=b"")
case("q1_one_byte", "refused 1 line 0 field 0 text", raw=b"N")
case("q1_no_last_newline", "refused 1 line 0 field 0 text", raw=TINY_TEXT[:-1])
case("q1_last_is_carriage_return", "refused 1 line 0 field 0 text", raw=TINY_TEXT[:-1] + b"\r")
case("q1_before_2", "refused 1 line 0 field 0 text", raw=b" ")
case("q1_32768_newlines", "refused 2 line 1 field 0 text", raw=b"", newlines=32768)
case("q1_32769_newlines", "refused 1 line 0 field 0 text", raw=b"", newlines=32769)
case("q1_65536_newlines", "refused 1 line 0 field 0 text", raw=b"", newlines=65536)
case("q1_tiny_and_65536", "refused 1 line 0 field 0 text", *TINY, newlines=65536)


# Question 2: the first line, the last line, lengths, bytes, spaces.

case("q2_one_newline", "refused 2 line 1 field 0 text", "")
case("q2_first_line_starts_with_space", "refused 2 line 1 field 0 text", " N 1 0 0", "B a 0 0", "E")
case("q2_first_line_ends_with_space", "refused 2 line 1 field 0 text", "N 1 0 0 ", "B a 0 0", "E")
case("q2_first_line_double_space", "refused 2 line 1 field 0 text", "N 1  0 0", "B a 0 0", "E")
case("q2_line_2_empty", "refused 2 line 2 field 0 text", "N 1 0 0", "", "B a 0 0", "E")
case("q2_last_line_empty", "refused 2 line 3 field 0 text", "N 1 0 0", "B a 0 0", "", "E")
case("q2_last_line_starts_with_space", "refused 2 line 3 field 0 text", "N 1 0 0", "B a 0 0", " E")
case("q2_last_line_ends_with_space", "refused 2 line 3 field 0 text", "N 1 0 0", "B a 0 0", "E ")
case("q2_last_line_is_a_space", "refused 2 line 3 field 0 text", "N 1 0 0", "B a 0 0", " ")
case("q2_last_line_carriage_return", "refused 2 line 3 field 0 text", "N 1 0 0", "B a 0 0", "E\r")
case("q2_tab", "refused 2 line 2 field 0 text", "N 1 0 0", "B\ta 0 0", "E")
case("q2_byte_0", "refused 2 line 3 field 0 text", "N 1 0 0", "B a 0 0", "\x00")
case("q2_byte_31", "refused 2 line 3 field 0 text", "N 1 0 0", "B a 0 0", "\x1f")
case("q2_byte_33", "refused 3 line 3 field 1 line", "N 1 0 0", "B a 0 0", "!")
case("q2_byte_126", "refused 3 line 3 field 1 line", "N 1 0 0", "B a 0 0", "~")
case("q2_byte_127", "refused 2 line 3 field 0 text", "N 1 0 0", "B a 0 0", "\x7f")
case("q2_byte_128", "refused 2 line 3 field 0 text", "N 1 0 0", "B a 0 0", "\x80")
case("q2_byte_255_last_in_line", "refused 2 line 2 field 0 text", "N 1 0 0", "B a 0 0\xff", "E")
case("q2_first_line_80_bytes", "refused 4 line 1 field 4 line", "N 1 0 " + "1" * 74, "B a 0 0", "E")
case("q2_first_line_81_bytes", "refused 2 line 1 field 0 text", "N 1 0 " + "1" * 75, "B a 0 0", "E")
case("q2_part_line_80_bytes", "refused 4 line 3 field 4 line", "N 1 1 0", "B a 0 0", "P p line " + "1" * 71, "E")
case("q2_part_line_81_bytes", "refused 2 line 3 field 0 text", "N 1 1 0", "B a 0 0", "P p line " + "1" * 72, "E")
case("q2_last_line_80_bytes", "refused 3 line 3 field 1 line", "N 1 0 0", "B a 0 0", "E" * 80)
case("q2_last_line_81_bytes", "refused 2 line 3 field 0 text", "N 1 0 0", "B a 0 0", "E" * 81)
case("q2_40_fields", "refused 3 line 3 field 0 line", "N 1 0 0", "B a 0 0", "E" + " E" * 39)
case("q2_41_fields", "refused 2 line 3 field 0 text", "N 1 0 0", "B a 0 0", "E" + " E" * 40)


# Question 3: letters, counts of fields, missing lines.

case("q3_first_line_block", "refused 3 line 1 field 1 line", "B a 0 0", "E")
case("q3_first_line_lower_case", "refused 3 line 1 field 1 line", "n 1 0 0", "B a 0 0", "E")
case("q3_first_line_two_letters", "refused 3 line 1 field 1 line", "NN 1 0 0", "B a 0 0", "E")
case("q3_line_2_header", "refused 3 line 2 field 1 line", "N 1 0 0", "N 1 0 0", "B a 0 0", "E")
case("q3_line_2_part", "refused 3 line 2 field 1 line", "N 1 1 0", "P a line 0", "E")
case("q3_line_2_wire", "refused 3 line 2 field 1 line", "N 1 0 1", "W a.0 b.0", "E")
case("q3_line_2_end", "refused 3 line 2 field 1 line", "N 0 0 0", "E")
case("q3_header_inside", "refused 3 line 3 field 1 line", "N 1 0 0", "B a 0 0", "N 1 0 0", "E")
case("q3_last_line_lower_case", "refused 3 line 3 field 1 line", "N 1 0 0", "B a 0 0", "e")
case("q3_last_line_two_letters", "refused 3 line 3 field 1 line", "N 1 0 0", "B a 0 0", "EE")
case("q3_header_1_field", "refused 3 line 1 field 0 line", "N", "B a 0 0", "E")
case("q3_header_3_fields", "refused 3 line 1 field 0 line", "N 1 0", "B a 0 0", "E")
case("q3_header_5_fields", "refused 3 line 1 field 0 line", "N 1 0 0 0", "B a 0 0", "E")
case("q3_block_3_fields", "refused 3 line 2 field 0 line", "N 1 0 0", "B a 0", "E")
case("q3_block_5_fields", "refused 3 line 2 field 0 line", "N 1 0 0", "B a 0 0 0", "E")
case("q3_inner_block_3_fields", "refused 3 line 3 field 0 line", "N 2 0 0", "B a 0 0", "B b 0", "E", "E")
case("q3_part_1_field", "refused 3 line 3 field 0 line", "N 1 1 0", "B a 0 0", "P", "E")
case("q3_part_2_fields", "refused 3 line 3 field 0 line", "N 1 1 0", "B a 0 0", "P p", "E")
case("q3_part_3_fields", "refused 4 line 3 field 0 line", "N 1 1 0", "B a 0 0", "P p line", "E")
case("q3_wire_2_fields", "refused 3 line 4 field 0 line", "N 1 1 1", "B a 1 0", "P p line 0", "W -.0", "E")
case("q3_wire_4_fields", "refused 3 line 4 field 0 line", "N 1 1 1", "B a 1 0", "P p line 0", "W -.0 p.0 p.0", "E")
case("q3_last_line_2_fields", "refused 3 line 3 field 0 line", "N 1 0 0", "B a 0 0", "E a")
case("q3_letter_before_count", "refused 3 line 3 field 1 line", "N 1 0 0", "B a 0 0", "N 1", "E")
case("q3_missing_board", "refused 3 line 2 field 0 line", "N 1 0 0")
case("q3_missing_end", "refused 3 line 3 field 0 line", "N 1 0 0", "B a 0 0")
case("q3_missing_inner_end", "refused 3 line 5 field 0 line", "N 2 0 0", "B a 0 0", "B b 0 0", "E")
case("q3_missing_last_end", "refused 3 line 11 field 0 line", *EXAMPLE[:-1])


# Question 4: header and blocks.

case("q4_header_256", "refused 10 line 1 field 2 board", "N 256 256 256", "B a 0 0", "E")
case("q4_header_blocks_257", "refused 4 line 1 field 2 line", "N 257 257 257", "B a 0 0", "E")
case("q4_header_parts_257", "refused 4 line 1 field 3 line", "N 256 257 257", "B a 0 0", "E")
case("q4_header_wires_257", "refused 4 line 1 field 4 line", "N 256 256 257", "B a 0 0", "E")
case("q4_header_blocks_01", "refused 4 line 1 field 2 line", "N 01 0 0", "B a 0 0", "E")
case("q4_header_parts_00", "refused 4 line 1 field 3 line", "N 1 00 0", "B a 0 0", "E")
case("q4_header_wires_00", "refused 4 line 1 field 4 line", "N 1 0 00", "B a 0 0", "E")
case("q4_header_minus", "refused 4 line 1 field 3 line", "N 1 -0 0", "B a 0 0", "E")
case("q4_header_letter", "refused 4 line 1 field 4 line", "N 1 0 a", "B a 0 0", "E")
case("q4_header_wraps_16_bits", "refused 4 line 1 field 2 line", "N 65537 0 0", "B a 0 0", "E")
case("q4_header_wraps_32_bits", "refused 4 line 1 field 2 line", "N 4294967297 0 0", "B a 0 0", "E")
case("q4_header_wraps_64_bits", "refused 4 line 1 field 2 line", "N 18446744073709551617 0 0", "B a 0 0", "E")
case("q4_name_8", "accepted 1 0 0 25", "N 1 0 0", "B abcdefgh 0 0", "E")
case("q4_name_9", "refused 4 line 2 field 2 line", "N 1 0 0", "B abcdefghi 0 0", "E")
case("q4_name_digits", "accepted 1 0 0 25", "N 1 0 0", "B z0123456 0 0", "E")
case("q4_name_digit_first", "refused 4 line 2 field 2 line", "N 1 0 0", "B 0z 0 0", "E")
case("q4_name_upper_case", "refused 4 line 2 field 2 line", "N 1 0 0", "B A 0 0", "E")
case("q4_name_upper_case_last", "refused 4 line 2 field 2 line", "N 1 0 0", "B aZ 0 0", "E")
case("q4_name_minus", "refused 4 line 2 field 2 line", "N 1 0 0", "B - 0 0", "E")
case("q4_name_before_a", "refused 4 line 2 field 2 line", "N 1 0 0", "B ` 0 0", "E")
case("q4_name_after_z", "refused 4 line 2 field 2 line", "N 1 0 0", "B { 0 0", "E")
case("q4_name_before_0", "refused 4 line 2 field 2 line", "N 1 0 0", "B a/ 0 0", "E")
case("q4_name_after_9", "refused 4 line 2 field 2 line", "N 1 0 0", "B a: 0 0", "E")
case("q4_pins_8", "accepted 1 0 0 18", "N 1 0 0", "B a 8 8", "E")
case("q4_ins_9", "refused 4 line 2 field 3 line", "N 1 0 0", "B a 9 9", "E")
case("q4_outs_9", "refused 4 line 2 field 4 line", "N 1 0 0", "B a 8 9", "E")
case("q4_ins_00", "refused 4 line 2 field 3 line", "N 1 0 0", "B a 00 0", "E")
case("q4_outs_01", "refused 4 line 2 field 4 line", "N 1 0 0", "B a 0 01", "E")
case("q4_block_name_before_pins", "refused 4 line 2 field 2 line", "N 1 0 0", "B A 9 9", "E")
case("q4_inner_block", "refused 4 line 3 field 4 line", "N 2 0 0", "B a 0 0", "B b 0 9", "E", "E")


# Question 4: parts. A board of one part has the bytes of "N 1 1 0", "B a 0 0" and "E" (18) and those of the part.

def one_part(name, line, part):
    case(name, line, "N 1 1 0", "B a 0 0", part, "E")


one_part("q4_kind_unknown", "refused 4 line 3 field 3 line", "P p nor 1")
one_part("q4_kind_upper_case", "refused 4 line 3 field 3 line", "P p Line 1")
one_part("q4_kind_short", "refused 4 line 3 field 3 line", "P p lin 1")
one_part("q4_kind_long", "refused 4 line 3 field 3 line", "P p gens 1 1 1")
one_part("q4_kind_is_a_number", "refused 4 line 3 field 3 line", "P p 1 line")
one_part("q4_gen_2_numbers", "refused 4 line 3 field 0 line", "P p gen 1 1")
one_part("q4_gen_4_numbers", "refused 4 line 3 field 0 line", "P p gen 1 1 1 1")
one_part("q4_uart_0_numbers", "refused 4 line 3 field 0 line", "P p uart")
one_part("q4_uart_2_numbers", "refused 4 line 3 field 0 line", "P p uart 1 1")
one_part("q4_line_2_numbers", "refused 4 line 3 field 0 line", "P p line 1 1")
one_part("q4_kind_before_count", "refused 4 line 3 field 3 line", "P P nor")
one_part("q4_count_before_name", "refused 4 line 3 field 0 line", "P P gen x")
one_part("q4_kind_before_name", "refused 4 line 3 field 3 line", "P P nor 1")
one_part("q4_part_name_before_numbers", "refused 4 line 3 field 2 line", "P P gen 0 256 256")
one_part("q4_part_name_9", "refused 4 line 3 field 2 line", "P abcdefghi line 0")
one_part("q4_part_name_8", "accepted 1 1 0 36", "P abcdefgh line 0")
one_part("q4_gen_least", "accepted 1 1 0 32", "P p gen 1 0 0")
one_part("q4_gen_most", "accepted 1 1 0 40", "P p gen 65535 255 255")
one_part("q4_gen_p_0", "refused 4 line 3 field 4 line", "P p gen 0 256 256")
one_part("q4_gen_p_65536", "refused 4 line 3 field 4 line", "P p gen 65536 0 0")
one_part("q4_gen_p_01", "refused 4 line 3 field 4 line", "P p gen 01 0 0")
one_part("q4_gen_v_256", "refused 4 line 3 field 5 line", "P p gen 1 256 256")
one_part("q4_gen_v_00", "refused 4 line 3 field 5 line", "P p gen 1 00 0")
one_part("q4_gen_s_256", "refused 4 line 3 field 6 line", "P p gen 1 255 256")
one_part("q4_gen_s_01", "refused 4 line 3 field 6 line", "P p gen 1 0 01")
one_part("q4_gen_s_wraps_8_bits", "refused 4 line 3 field 6 line", "P p gen 1 0 257")
one_part("q4_uart_b_1", "accepted 1 1 0 29", "P p uart 1")
one_part("q4_uart_b_65535", "accepted 1 1 0 33", "P p uart 65535")
one_part("q4_uart_b_0", "refused 4 line 3 field 4 line", "P p uart 0")
one_part("q4_uart_b_65536", "refused 4 line 3 field 4 line", "P p uart 65536")
one_part("q4_uart_b_00001", "refused 4 line 3 field 4 line", "P p uart 00001")
one_part("q4_line_d_0", "accepted 1 1 0 29", "P p line 0")
one_part("q4_line_d_65535", "accepted 1 1 0 33", "P p line 65535")
one_part("q4_line_d_65536", "refused 4 line 3 field 4 line", "P p line 65536")
one_part("q4_line_d_00", "refused 4 line 3 field 4 line", "P p line 00")
one_part("q4_line_d_01", "refused 4 line 3 field 4 line", "P p line 01")
one_part("q4_line_d_100000", "refused 4 line 3 field 4 line", "P p line 100000")
one_part("q4_line_d_wraps_64_bits", "refused 4 line 3 field 4 line", "P p line 18446744073709551616")
one_part("q4_line_d_plus", "refused 4 line 3 field 4 line", "P p line +1")
one_part("q4_line_d_before_0", "refused 4 line 3 field 4 line", "P p line 1/")
one_part("q4_line_d_after_9", "refused 4 line 3 field 4 line", "P p line 1:")


# Question 4: wire ends. The wire stands in line 4; without it the file has 8 + 8 + 11 + 2 bytes.

def one_wire(name, line, wire, block="B a 8 8"):
    case(name, line, "N 1 1 1", block, "P p line 0", wire, "E")


one_wire("q4_end_pin_7", "accepted 1 1 1 39", "W -.7 p.0")
one_wire("q4_end_pin_8", "refused 4 line 4 field 2 line", "W -.8 p.0")
one_wire("q4_end_pin_letter", "refused 4 line 4 field 2 line", "W -.a p.0")
one_wire("q4_end_pin_00", "refused 4 line 4 field 2 line", "W -.00 p.0")
one_wire("q4_end_no_pin", "refused 4 line 4 field 2 line", "W -. p.0")
one_wire("q4_end_no_point", "refused 4 line 4 field 2 line", "W - p.0")
one_wire("q4_end_no_name", "refused 4 line 4 field 2 line", "W .0 p.0")
one_wire("q4_end_two_minus", "refused 4 line 4 field 2 line", "W --.0 p.0")
one_wire("q4_end_minus_name", "refused 4 line 4 field 2 line", "W -p.0 p.0")
one_wire("q4_end_two_points", "refused 4 line 4 field 2 line", "W -..0 p.0")
one_wire("q4_end_comma", "refused 4 line 4 field 2 line", "W -,0 p.0")
one_wire("q4_end_upper_case", "refused 4 line 4 field 3 line", "W -.0 P.0")
one_wire("q4_end_digit_first", "refused 4 line 4 field 3 line", "W -.0 0p.0")
one_wire("q4_end_name_8", "refused 7 line 4 field 3 block", "W -.0 abcdefgh.0")
one_wire("q4_end_name_9", "refused 4 line 4 field 3 line", "W -.0 abcdefghi.0")
one_wire("q4_to_pin_8", "refused 4 line 4 field 3 line", "W -.0 p.8")
one_wire("q4_to_pin_10", "refused 4 line 4 field 3 line", "W -.0 p.10")
one_wire("q4_from_before_to", "refused 4 line 4 field 2 line", "W -.8 p.8")


# Question 5.

case("q5_first_two_parts", "refused 5 line 4 field 2 block", "N 1 2 0", "B a 0 0", "P p line 0", "P p uart 1", "E")
case("q5_two_blocks", "refused 5 line 5 field 2 block", "N 3 0 0", "B a 0 0", "B b 0 0", "E", "B b 1 1", "E", "E")
case("q5_part_then_block", "refused 5 line 4 field 2 block", "N 2 1 0", "B a 0 0", "P p line 0", "B p 0 0", "E", "E")
case("q5_block_then_part", "refused 5 line 5 field 2 block", "N 2 1 0", "B a 0 0", "B p 0 0", "E", "P p line 0", "E")
case("q5_last_item", "refused 5 line 6 field 2 block", "N 1 4 0", "B a 0 0", "P p line 0", "P q line 0", "P r line 0", "P p line 0", "E")
case("q5_in_inner_block", "refused 5 line 5 field 2 block", "N 2 2 0", "B a 0 0", "B b 0 0", "P p line 0", "P p line 0", "E", "E")
case("q5_board_name_is_free", "accepted 1 1 0 29", "N 1 1 0", "B a 0 0", "P a line 0", "E")
case("q5_block_name_is_free_inside", "accepted 3 0 0 38", "N 3 0 0", *["B a 0 0"] * 3, *["E"] * 3)
case("q5_same_name_in_two_blocks", "accepted 3 3 0 71",
     "N 3 3 0", "B a 0 0", "B b 0 0", "P p line 0", "E", "B c 0 0", "P p line 0", "E", "P p line 0", "E")
case("q5_names_of_8_that_differ_last", "accepted 1 2 0 54",
     "N 1 2 0", "B a 0 0", "P abcdefgh line 0", "P abcdefgi line 0", "E")
case("q5_name_and_longer_name", "accepted 1 2 0 41", "N 1 2 0", "B a 0 0", "P p line 0", "P p0 line 0", "E")


# Question 6.

BLOCKS = [line for k in range(1, 33) for line in (f"B b{k} 0 0", "E")]
PARTS = [f"P p{k} line 0" for k in range(1, 66)]
PINS = range(8)
WIRES = [f"W {a}.{i} {b}.{j}" for a, b in ("-a", "ab", "ba", "a-") for i in PINS for j in PINS]
WIRED = ["B t 8 8", "B a 8 8", "E", "B b 8 8", "E", *WIRES]

case("q6_blocks_32", "accepted 32 0 0 382", "N 32 0 0", "B t 0 0", *BLOCKS[:62], "E")
case("q6_blocks_33", "refused 6 line 65 field 0 block", "N 33 0 0", "B t 0 0", *BLOCKS, "E")
case("q6_parts_64", "accepted 1 64 0 842", "N 1 64 0", "B t 0 0", *PARTS[:64], "E")
case("q6_parts_65", "refused 6 line 67 field 0 block", "N 1 65 0", "B t 0 0", *PARTS, "E")
case("q6_parts_65_in_inner_block", "refused 6 line 68 field 0 block", "N 2 65 0", "B t 0 0", *PARTS[:64], "B b 0 0", PARTS[64], "E", "E")
case("q6_wires_256", "accepted 3 0 256 2600", "N 3 0 256", *WIRED, "E")
case("q6_wires_257", "refused 6 line 263 field 0 block", "N 3 0 256", *WIRED, "W b.0 -.0", "E")
case("q6_depth_8", "accepted 8 0 0 88", "N 8 0 0", *["B a 0 0"] * 8, *["E"] * 8)
case("q6_depth_9", "refused 6 line 10 field 0 block", "N 9 0 0", *["B a 0 0"] * 9, *["E"] * 9)
case("q6_depth_8_twice", "accepted 15 0 0 159",
     "N 15 0 0", "B a 0 0", *["B a 0 0"] * 7, *["E"] * 7, *["B b 0 0"] * 7, *["E"] * 7, "E")
case("q6_depth_9_after_depth_8", "refused 6 line 24 field 0 block",
     "N 16 0 0", *["B a 0 0"] * 8, *["E"] * 7, "B b 0 0", *["B a 0 0"] * 7, *["E"] * 9)


# Question 7. The wire stands in line 8; before it a line p, a uart u and a block b, after it a line z.

def seventh(name, line, wire):
    case(name, line, "N 2 4 1", "B t 2 1", "P p line 0", "P u uart 1", "B b 3 4", "P q line 0", "E", wire, "P z line 0", "E")


seventh("q7_from_absent", "refused 7 line 8 field 2 block", "W x.0 p.0")
seventh("q7_to_absent", "refused 7 line 8 field 3 block", "W u.0 x.0")
seventh("q7_from_before_to", "refused 7 line 8 field 2 block", "W x.0 x.0")
seventh("q7_from_later", "refused 7 line 8 field 2 block", "W z.0 p.0")
seventh("q7_to_later", "refused 7 line 8 field 3 block", "W p.0 z.0")
seventh("q7_from_inside_child", "refused 7 line 8 field 2 block", "W q.0 p.0")
seventh("q7_to_inside_child", "refused 7 line 8 field 3 block", "W p.0 q.0")
seventh("q7_from_own_name", "refused 7 line 8 field 2 block", "W t.0 p.0")
seventh("q7_from_part_pin_1", "refused 7 line 8 field 2 block", "W p.1 u.0")
seventh("q7_from_uart_pin_1", "accepted 2 4 1 82", "W u.1 p.0")
seventh("q7_from_uart_pin_2", "refused 7 line 8 field 2 block", "W u.2 p.0")
seventh("q7_to_uart_pin_1", "refused 7 line 8 field 3 block", "W p.0 u.1")
seventh("q7_from_block_pin_3", "accepted 2 4 1 82", "W b.3 p.0")
seventh("q7_from_block_pin_4", "refused 7 line 8 field 2 block", "W b.4 p.0")
seventh("q7_to_block_pin_2", "accepted 2 4 1 82", "W p.0 b.2")
seventh("q7_to_block_pin_3", "refused 7 line 8 field 3 block", "W p.0 b.3")
seventh("q7_from_own_pin_1", "accepted 2 4 1 82", "W -.1 p.0")
seventh("q7_from_own_pin_2", "refused 7 line 8 field 2 block", "W -.2 p.0")
seventh("q7_to_own_pin_0", "accepted 2 4 1 82", "W p.0 -.0")
seventh("q7_to_own_pin_1", "refused 7 line 8 field 3 block", "W p.0 -.1")
case("q7_first_item", "refused 7 line 3 field 2 block", "N 1 0 1", "B t 0 0", "W -.0 -.0", "E")
case("q7_no_own_output", "refused 7 line 4 field 3 block", "N 1 1 1", "B t 1 0", "P p line 0", "W p.0 -.0", "E")
case("q7_no_own_input", "refused 7 line 4 field 2 block", "N 1 1 1", "B t 0 1", "P p line 0", "W -.0 p.0", "E")
case("q7_outer_child_from_inside", "refused 7 line 5 field 2 block",
     "N 2 1 1", "B t 0 0", "P p line 0", "B b 1 1", "W p.0 -.0", "E", "E")
case("q7_own_pins_are_those_of_the_inner_block", "refused 7 line 5 field 2 block",
     "N 2 1 1", "B t 1 1", "B b 0 1", "P p line 0", "W -.0 p.0", "E", "E")
case("q7_own_pins_after_a_block_is_closed", "refused 7 line 6 field 2 block",
     "N 2 1 1", "B t 0 1", "B b 1 1", "E", "P p line 0", "W -.0 p.0", "E")
case("q7_last_wire", "refused 7 line 6 field 3 block",
     "N 1 2 2", "B t 1 1", "P p line 0", "P q line 0", "W p.0 q.0", "W q.0 p.1", "E")


# Question 8.

case("q8_first_item", "refused 8 line 3 field 0 block", "N 1 0 1", "B t 1 1", "W -.0 -.0", "E")
case("q8_own_pins_differ", "refused 8 line 3 field 0 block", "N 1 0 1", "B t 2 3", "W -.1 -.2", "E")
case("q8_part", "refused 8 line 4 field 0 block", "N 1 1 1", "B t 0 0", "P p line 0", "W p.0 p.0", "E")
case("q8_uart", "refused 8 line 4 field 0 block", "N 1 1 1", "B t 0 0", "P p uart 1", "W p.1 p.0", "E")
case("q8_child_block", "refused 8 line 5 field 0 block", "N 2 0 1", "B t 0 0", "B b 1 1", "E", "W b.0 b.0", "E")
case("q8_last_wire", "refused 8 line 6 field 0 block",
     "N 1 2 2", "B t 0 0", "P p line 0", "P q line 0", "W p.0 q.0", "W q.0 q.0", "E")
case("q8_both_ways_is_fine", "accepted 1 2 2 60",
     "N 1 2 2", "B t 0 0", "P p line 0", "P q line 0", "W p.0 q.0", "W q.0 p.0", "E")


# Question 9.

case("q9_at_once", "refused 9 line 6 field 0 block",
     "N 1 2 2", "B t 0 0", "P p line 0", "P q line 0", "W p.0 q.0", "W p.0 q.0", "E")
case("q9_last_wire", "refused 9 line 9 field 0 block",
     "N 1 3 4", "B t 1 0", "P p line 0", "P q line 0", "W p.0 q.0", "W -.0 q.0", "P r line 0", "W q.0 r.0", "W p.0 q.0", "E")
case("q9_own_pins", "refused 9 line 5 field 0 block", "N 1 1 2", "B t 1 1", "P p line 0", "W -.0 p.0", "W -.0 p.0", "E")
case("q9_after_an_inner_block", "refused 9 line 7 field 0 block",
     "N 2 1 2", "B t 1 1", "P p line 0", "W -.0 p.0", "B b 0 0", "E", "W -.0 p.0", "E")
case("q9_same_names_in_another_block", "accepted 2 2 2 70",
     "N 2 2 2", "B t 1 1", "P p line 0", "W -.0 p.0", "B b 1 1", "P p line 0", "W -.0 p.0", "E", "E")
case("q9_from_pin_differs", "accepted 1 1 2 49", "N 1 1 2", "B t 2 1", "P p line 0", "W -.0 p.0", "W -.1 p.0", "E")
case("q9_to_pin_differs", "accepted 1 1 2 49", "N 1 1 2", "B t 1 2", "P p line 0", "W p.0 -.0", "W p.0 -.1", "E")


# Question 10.

def counted(name, line, header):
    case(name, line, header, *EXAMPLE[1:])


counted("q10_blocks_too_few", "refused 10 line 1 field 2 board", "N 1 2 4")
counted("q10_blocks_too_many", "refused 10 line 1 field 2 board", "N 3 2 4")
counted("q10_parts_too_few", "refused 10 line 1 field 3 board", "N 2 1 4")
counted("q10_parts_too_many", "refused 10 line 1 field 3 board", "N 2 3 4")
counted("q10_wires_too_few", "refused 10 line 1 field 4 board", "N 2 2 3")
counted("q10_wires_too_many", "refused 10 line 1 field 4 board", "N 2 2 5")
counted("q10_all_wrong", "refused 10 line 1 field 2 board", "N 0 0 0")
counted("q10_parts_and_wires_wrong", "refused 10 line 1 field 3 board", "N 2 0 0")
counted("q10_wraps_8_bits", "refused 10 line 1 field 4 board", "N 2 2 256")
case("q10_the_board_is_counted", "refused 10 line 1 field 2 board", "N 0 0 0", "B a 0 0", "E")
case("q10_lines_after_end_are_not_counted", "refused 10 line 1 field 3 board", "N 1 1 0", "B a 0 0", "E", "P p line 0", "E")
case("q10_early_end", "refused 10 line 1 field 4 board",
     "N 2 1 3", "B top 0 1", "B io 1 1", "P a line 4", "W -.0 a.0", "W a.0 -.0", "E", "E", "W io.0 -.0", "E")


# Two faults: the earlier line, in it the lower number, and for one number the order written.

case("two_2_before_3", "refused 2 line 1 field 0 text", "X  1 0 0", "B a 0 0", "E")
case("two_2_before_4", "refused 2 line 2 field 0 text", "N 1 0 0", "B A 9 9 ", "E")
case("two_3_before_4", "refused 3 line 2 field 0 line", "N 1 0 0", "B A 9", "E")
case("two_4_before_5", "refused 4 line 4 field 4 line", "N 1 2 0", "B a 0 0", "P p line 0", "P p line 65536", "E")
case("two_5_before_6", "refused 5 line 67 field 2 block", "N 1 65 0", "B t 0 0", *PARTS[:64], "P p1 line 0", "E")
case("two_5_before_6_block", "refused 5 line 65 field 2 block", "N 33 0 0", "B t 0 0", *BLOCKS[:62], "B b1 0 0", "E", "E")
case("two_4_before_6", "refused 4 line 67 field 2 line", "N 1 65 0", "B t 0 0", *PARTS[:64], "P P line 0", "E")
case("two_6_before_7", "refused 6 line 263 field 0 block", "N 3 0 256", *WIRED, "W x.0 x.0", "E")
case("two_6_before_8", "refused 6 line 263 field 0 block", "N 3 0 256", *WIRED, "W a.0 a.0", "E")
case("two_6_before_9", "refused 6 line 263 field 0 block", "N 3 0 256", *WIRED, "W -.0 a.0", "E")
case("two_4_before_7", "refused 4 line 4 field 3 line", "N 1 1 1", "B t 0 0", "P p line 0", "W x.0 p.8", "E")
case("two_7_before_8", "refused 7 line 4 field 3 block", "N 1 1 1", "B t 0 0", "P p line 0", "W p.0 p.1", "E")
case("two_1_before_all", "refused 1 line 0 field 0 text", raw=b" X\n\nB")
case("two_earlier_line_9_before_2", "refused 9 line 5 field 0 block",
     "N 1 1 2", "B t 1 0", "P p line 0", "W -.0 p.0", "W -.0 p.0", "", "E")
case("two_earlier_line_4_before_3", "refused 4 line 1 field 4 line", "N 1 0 257", "X")
case("two_line_before_10", "refused 8 line 3 field 0 block", "N 0 0 0", "B t 1 1", "W -.0 -.0", "E")
case("two_missing_end_before_10", "refused 3 line 3 field 0 line", "N 0 0 0", "B t 1 1")


def rust(data):
    """A Rust byte-string literal."""
    named = {10: "\\n", 13: "\\r", 9: "\\t", 0: "\\0", 34: '\\"', 92: "\\\\"}
    return 'b"' + "".join(named.get(byte) or (chr(byte) if 32 <= byte < 127 else f"\\x{byte:02x}") for byte in data) + '"'


def escaped(data):
    """The text of a case, as crates/netlist_cases/src/escape.rt reads it; a byte that stands over 80 times in a row is counted."""
    named = {10: "\\n", 92: "\\\\"}
    parts = []
    for run in re.finditer(rb"(.)\1*", data, re.DOTALL):
        byte, count = run[0][0], len(run[0])
        one = named.get(byte) or (chr(byte) if 32 <= byte < 127 else f"\\x{byte:02x}")
        parts.append(one * count if count <= 80 else f"\\{{{byte}*{count}}}")
    return "".join(parts)


def answer_of(program, data):
    if program is None:
        return second_reader.answer(data)
    with tempfile.TemporaryDirectory() as folder:
        path = os.path.join(folder, "case.net")
        with open(path, "wb") as file:
            file.write(data)
        printed = subprocess.run([program, "check", path], stdout=subprocess.PIPE, timeout=60).stdout
        return printed.decode("latin-1").removesuffix("\n")


def main():
    if len(sys.argv) == 1:
        for name, text, newlines, line in CASES:
            print(f'("{name}", {rust(text)}, {newlines}, {rust(line.encode())}),')
        return
    if sys.argv[1:] == ["--stdin"]:
        for name, text, newlines, _ in CASES:
            print(name, escaped(text + b"\n" * newlines))
        return
    if sys.argv[1:] == ["--stdout"]:
        for name, _, _, line in CASES:
            print(f"{name}: {line}")
        print(len(CASES), "cases")
        return
    if sys.argv[1] != "--check" or len(sys.argv) > 3:
        sys.exit(__doc__)
    program = sys.argv[2] if len(sys.argv) == 3 else None
    wrong = 0
    for name, text, newlines, line in CASES:
        answer = answer_of(program, text + b"\n" * newlines)
        if answer != line:
            wrong += 1
            print(f"{name}: expected `{line}`, got `{answer}`")
    print(f"{len(CASES) - wrong} of {len(CASES)} cases agreed")
    sys.exit(1 if wrong else 0)


if __name__ == "__main__":
    main()
