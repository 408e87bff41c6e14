#!/usr/bin/env python3
"""cases.py CRATES: makes the job files that the gate runs the job programs on, CRATES/page_cases/data, args and stdout, CRATES/page's file of case R and CRATES/large_page's of a larger page.

The answers are the model's; no proved program is run. The files are the same on every run, and none is written if an answer is missing
that a job can get.
"""
import pathlib
import shutil
import sys
from collections import Counter

from job import DOCUMENT, LARGER, MOST_BYTES, answer
from texts import text_of

T = [(1, 4), (1, 3), (1, 2)]
CASE_R = text_of(2, 1, "lel", T)
DUE = {b"best"} | {b"refused\t%d" % number for number in (2, 3, 4, 5, 6, 11, 12, 13, 15)}  # a job's text can't reach the other numbers
AMPLE = 100_000  # places


def powers(count):
    return [(2**i, 2**i) for i in range(count)]


def small_ones(count):
    return [(1, i % 9 + 1) for i in range(count)]


LARGE = [(i * 7 % 50 + 20, i * 7 % 50 + 20 + i * 5 % 7) for i in range(30)]
WIDE_LEL = list(zip((76, 124, 23, 192, 20, 52, 19, 79, 157, 57, 33, 61), (65, 169, 99, 21, 169, 75, 161, 192, 16, 170, 85, 71)))
WIDE_FRONTIER = list(zip((140, 95, 122, 149, 156, 121, 142, 50, 121, 141), (34, 155, 161, 17, 4, 67, 60, 184, 139, 122)))
DRAINS_128 = list(zip((6, 5, 8, 44, 22, 39, 59, 10, 4, 44), (23, 1, 30, 1, 26, 5, 3, 44, 11, 22)))
DRAINS_129 = list(zip((9, 30, 33, 30, 21, 38, 24, 44, 42, 41, 2), (15, 19, 45, 59, 51, 24, 22, 41, 49, 27, 29)))
OPENS_384 = list(zip((21, 40, 40, 38, 67, 49, 36, 33, 69, 62, 58, 53, 51, 35), (24, 41, 48, 40, 73, 49, 44, 36, 76, 65, 63, 56, 60, 40)))
OPENS_385 = list(zip((62, 41, 66, 31, 62, 41, 65, 63, 53, 64, 56, 29, 44, 42, 31), (71, 45, 69, 33, 64, 48, 71, 67, 61, 72, 63, 31, 52, 43, 40)))


TWENTY_ITEMS = text_of(440, 256, "lel", LARGE[:20])  # for large_page: document 01's sizes refuse it


def accepted():
    yield "case_r", CASE_R
    yield "case_r_frontier", text_of(2, 1, "frontier", T)
    yield "case_r_width_2", text_of(2, 2, "lel", T)
    yield "no_items", text_of(2, 1, "lel", [])
    yield "no_items_frontier", text_of(0, 256, "frontier", [])
    yield "capacity_0", text_of(0, 1, "lel", T)
    yield "weights_0", text_of(2, 1, "lel", [(0, 4), (0, 3), (0, 2)])
    yield "capacity_and_weights_0", text_of(0, 1, "frontier", [(0, 4), (1, 3), (0, 2)])
    yield "profits_0", text_of(2, 1, "lel", [(1, 0), (1, 0), (1, 0)])
    yield "all_0", text_of(0, 1, "lel", [(0, 0), (0, 0)])
    yield "nothing_fits", text_of(2, 1, "lel", [(3, 4), (65_535, 1_000_000)])
    yield "all_fit", text_of(65_535, 1, "frontier", [(7, 3), (5, 2), (11, 9)])
    yield "one_item", text_of(3, 1, "lel", [(3, 5)])
    yield "tie_of_items", text_of(2, 1, "lel", [(2, 3), (2, 3)])
    yield "tie_of_items_frontier", text_of(2, 1, "frontier", [(2, 3), (2, 3)])
    yield "tie_of_many", text_of(6, 2, "lel", [(2, 3)] * 7)
    yield "tie_of_bounds", text_of(5, 1, "lel", [(1, 2), (2, 4), (3, 6), (4, 8)])
    yield "tie_of_paths", text_of(4, 3, "frontier", [(1, 1), (2, 2), (3, 3), (1, 1), (2, 2)])
    for width in 1, 3, 8, 32, 256:
        for cut in "lel", "frontier":
            yield f"ten_items_width_{width}_{cut}", text_of(40, width, cut, [(i * 5 % 11 + 3, i * 7 % 13 + 1) for i in range(10)])
    yield "items_64", text_of(64, 1, "lel", small_ones(64))
    yield "items_64_frontier", text_of(64, 1, "frontier", small_ones(64))
    yield "at_every_limit", text_of(65_535, 256, "lel", [(65_535, 1_000_000), (65_535, 999_999), (0, 1_000_000)])
    yield "best_of_eight_digits", text_of(65_535, 1, "lel", [(1, 1_000_000)] * 64)


def limits():
    """Refusals 2 to 6, one above each limit; and where several apply, the first is given."""
    yield "items_65", text_of(2, 1, "lel", [(1, 1)] * 65)
    yield "capacity_65536", text_of(65_536, 1, "lel", T)
    yield "weight_65536", text_of(2, 1, "lel", T + [(65_536, 1)])
    yield "profit_1000001", text_of(2, 1, "lel", T + [(1, 1_000_001)])
    yield "width_0", text_of(2, 0, "lel", T)
    yield "width_257", text_of(2, 257, "frontier", T)
    yield "width_0_no_items", text_of(2, 0, "lel", [])
    bad = (65_536, 1_000_001)
    yield "first_of_2_to_6", text_of(65_536, 0, "lel", [bad] * 65)
    yield "first_of_3_to_6", text_of(65_536, 0, "lel", [bad])
    yield "first_of_4_to_6", text_of(65_535, 0, "lel", [(1, 1_000_001), bad])
    yield "first_of_5_to_6", text_of(65_535, 0, "lel", [(65_535, 1_000_001)])
    yield "bad_item_of_65", text_of(2, 1, "lel", [(1, 1)] * 64 + [bad])
    yield "bad_item_last_of_64", text_of(2, 1, "lel", [(1, 1)] * 63 + [bad])
    nine = 999_999_999
    yield "nine_digits_capacity", text_of(nine, 1, "lel", T)
    yield "nine_digits_width", text_of(2, nine, "lel", T)
    yield "nine_digits_weight", text_of(2, 1, "lel", [(nine, 1)])
    yield "nine_digits_profit", text_of(2, 1, "lel", [(1, nine)])
    yield "nine_digits_everywhere", text_of(nine, nine, "frontier", [(nine, nine)])


def rooms():
    """Refusals 11 to 13."""
    yield "node_rows", text_of(2_047, 256, "lel", powers(12))
    yield "node_rows_frontier", text_of(2_047, 256, "frontier", powers(12))
    yield "edge_rows", text_of(64, 256, "lel", small_ones(64))
    yield "edge_rows_frontier", text_of(64, 256, "frontier", small_ones(64))
    yield "scratch_places", text_of(257, 133, "lel", WIDE_LEL)
    yield "scratch_places_frontier", text_of(963, 171, "frontier", WIDE_FRONTIER)
    yield "open_places", text_of(500, 8, "lel", LARGE)
    yield "open_places_frontier", text_of(500, 8, "frontier", LARGE)


def just_enough():
    """Jobs that need all the room that there is of one kind, and jobs that need one more: name, kind, whether it is one more, text."""
    # One item of weight 1 more makes a layer one row longer. One that never fits repeats a layer with an edge a row, one of weight 0 with two.
    ones, never, free = small_ones(41), (42, 7), (0, 5)
    rows = ones[:9] + [never] + ones[9:38] + [never] * 6
    yield "node_rows_1024", "nodes", False, text_of(38, 256, "lel", rows)
    yield "node_rows_1025", "nodes", True, text_of(38, 256, "lel", [never] + rows)
    rows = ones[:34] + [free] + ones[34:]
    yield "edge_rows_1792", "edges", False, text_of(41, 256, "frontier", rows)
    yield "edge_rows_1793", "edges", True, text_of(41, 256, "frontier", [never] + rows)
    yield "scratch_places_128", "scratch", False, text_of(145, 136, "lel", DRAINS_128)
    yield "scratch_places_129", "scratch", True, text_of(196, 129, "lel", DRAINS_129)
    yield "open_places_384", "list", False, text_of(310, 7, "frontier", OPENS_384)
    yield "open_places_385", "list", True, text_of(403, 11, "lel", OPENS_385)


def filled(length):
    """A job of that many bytes, its items 0 and 0."""
    short = text_of(1, 1, "lel", [])
    count, more = divmod(length - len(short), len(b"item\t0\t0\n"))
    return text_of(10**more, 1, "lel", [(0, 0)] * count)


def faults():
    """Each rule of the grammar, broken once; case R but for the fault. And the longest text."""
    def edited(old, new):
        assert CASE_R.count(old) == 1
        return CASE_R.replace(old, new)

    yield "bytes_65535", filled(MOST_BYTES)
    yield "bytes_65536", filled(MOST_BYTES + 1)
    yield "bytes_65544", filled(MOST_BYTES + 9)
    yield "no_bytes", b""
    yield "one_line_end", b"\n"
    for sign in "plus", "minus":
        mark = {"plus": b"+", "minus": b"-"}[sign]
        yield f"{sign}_capacity", edited(b"cap\t", b"cap\t" + mark)
        yield f"{sign}_width", edited(b"width\t", b"width\t" + mark)
        yield f"{sign}_weight", edited(b"item\t1\t4", b"item\t" + mark + b"1\t4")
        yield f"{sign}_profit", edited(b"\t4", b"\t" + mark + b"4")
    yield "leading_zero_capacity", edited(b"cap\t", b"cap\t0")
    yield "leading_zero_width", edited(b"width\t", b"width\t0")
    yield "leading_zero_weight", edited(b"item\t1\t4", b"item\t01\t4")
    yield "leading_zero_profit", edited(b"\t4", b"\t04")
    yield "two_zeros", edited(b"cap\t2", b"cap\t00")
    yield "ten_digits_capacity", edited(b"cap\t2", b"cap\t1000000000")
    yield "ten_digits_width", edited(b"width\t1", b"width\t1000000000")
    yield "ten_digits_weight", edited(b"item\t1\t4", b"item\t1000000000\t4")
    yield "ten_digits_profit", edited(b"\t4", b"\t1000000000")
    yield "past_64_bits", edited(b"cap\t2", b"cap\t18446744073709551618")
    yield "no_digit_capacity", edited(b"cap\t2", b"cap\t")
    yield "no_digit_profit", edited(b"\t4", b"\t")
    yield "hexadecimal", edited(b"cap\t2", b"cap\t0x2")
    yield "letter_in_number", edited(b"\t4", b"\t4a")
    yield "space_for_tab_capacity", edited(b"cap\t", b"cap ")
    yield "space_for_tab_cut", edited(b"cut\t", b"cut ")
    yield "space_for_tab_item", edited(b"\t4", b" 4")
    yield "two_tabs", edited(b"cap\t", b"cap\t\t")
    yield "tab_at_line_end", edited(b"\t4", b"\t4\t")
    yield "space_at_line_end", edited(b"\t4", b"\t4 ")
    yield "space_at_line_start", edited(b"width", b" width")
    yield "cr_lf_everywhere", CASE_R.replace(b"\n", b"\r\n")
    yield "cr_lf_once", edited(b"\t4\n", b"\t4\r\n")
    yield "cr_alone", CASE_R.replace(b"\n", b"\r")
    yield "last_line_end_missing", CASE_R[:-1]
    yield "last_line_end_missing_cut", text_of(2, 1, "lel", [])[:-1]
    yield "ends_in_a_word", CASE_R + b"ite"
    yield "ends_behind_a_tab", CASE_R + b"item\t1\t"
    yield "zero_byte_at_end", CASE_R + b"\0"
    yield "empty_line_first", b"\n" + CASE_R
    yield "empty_line_between", edited(b"cut", b"\ncut")
    yield "empty_line_last", CASE_R + b"\n"
    yield "width_before_cap", edited(b"cap\t2\nwidth\t1\n", b"width\t1\ncap\t2\n")
    yield "cut_before_width", edited(b"width\t1\ncut\tlel\n", b"cut\tlel\nwidth\t1\n")
    yield "item_before_cut", edited(b"cut\tlel\nitem\t1\t4\n", b"item\t1\t4\ncut\tlel\n")
    yield "cap_at_end", CASE_R[6:] + CASE_R[:6]
    yield "cap_twice", edited(b"cap\t2\n", b"cap\t2\ncap\t2\n")
    yield "width_twice", edited(b"width\t1\n", b"width\t1\nwidth\t1\n")
    yield "cut_twice", edited(b"cut\tlel\n", b"cut\tlel\ncut\tlel\n")
    yield "cap_again_at_end", CASE_R + b"cap\t2\n"
    yield "cap_missing", edited(b"cap\t2\n", b"")
    yield "width_missing", edited(b"width\t1\n", b"")
    yield "cut_missing", edited(b"cut\tlel\n", b"")
    yield "cut_unknown", edited(b"lel", b"leo")
    yield "cut_longer", edited(b"lel", b"lell")
    yield "cut_shorter", edited(b"lel", b"le")
    yield "cut_front", edited(b"lel", b"front")
    yield "cut_capital", edited(b"lel", b"LEL")
    yield "word_capital", edited(b"cap", b"CAP")
    yield "word_longer", edited(b"width", b"widths")
    yield "word_unknown", CASE_R + b"note\t1\t1\n"
    yield "item_of_one_number", edited(b"\t4", b"")
    yield "item_of_three_numbers", edited(b"\t4", b"\t4\t4")
    yield "byte_128", edited(b"\t4", b"\t\x80")
    yield "byte_255", CASE_R + b"\xff"
    yield "byte_order_mark", b"\xef\xbb\xbf" + CASE_R
    yield "wide_digit", edited(b"\t4", b"\t\xef\xbc\x94")
    yield "high_bit_of_a_letter", edited(b"cap", b"\xe3ap")
    yield "fault_before_limits", text_of(65_536, 0, "lel", [(65_536, 1_000_001)] * 65)[:-1]


def whole_list():
    for group in accepted, limits, rooms, faults:
        yield from group()
    yield from ((name, text) for name, _, _, text in just_enough())


def lacking(answers):
    """The answers that no file gets, jobs meant to be accepted that aren't, and jobs whose room isn't what their name says."""
    given = {text.split(b"\n", 1)[0] for text in answers.values()}
    yield from sorted(DUE - {b"best" if line.startswith(b"best\t") else line for line in given})
    yield from (name for name, _ in accepted() if not answers[name].startswith(b"best"))
    jobs = dict(whole_list())
    for name, sizes in ("scratch_places", DOCUMENT._replace(list=AMPLE)), ("open_places", DOCUMENT._replace(scratch=AMPLE)):
        if answer(jobs[name], sizes) != answers[name]:
            yield name
    for name, kind, one_more, text in just_enough():
        # the same with one place more or less: one of the two is accepted, the other refused
        other = answer(text, DOCUMENT._replace(**{kind: getattr(DOCUMENT, kind) + (1 if one_more else -1)}))
        if not (other if one_more else answers[name]).startswith(b"best") or not (answers[name] if one_more else other).startswith(b"refused"):
            yield name
    if not answer(TWENTY_ITEMS).startswith(b"refused") or not answer(TWENTY_ITEMS, LARGER).startswith(b"best"):
        yield "twenty_items"


def put_jobs(folder, jobs):
    """The job files of a crate, and its arguments."""
    shutil.rmtree(folder / "data", ignore_errors=True)
    (folder / "data").mkdir(parents=True)
    for name, text in jobs.items():
        (folder / "data" / f"{name}.job").write_bytes(text)
    (folder / "args").write_text("".join(f"{name}.job\n" for name in jobs))


def put_page(folder):
    """What the program page is run on: case R."""
    put_jobs(folder, {"case_r": CASE_R})
    (folder / "stdout").write_bytes(answer(CASE_R))


def put_large_page(folder):
    """What the program large_page is run on: a job that page refuses."""
    put_jobs(folder, {"twenty_items": TWENTY_ITEMS})
    (folder / "stdout").write_bytes(answer(TWENTY_ITEMS, LARGER))


def put_cases(folder, jobs, answers):
    """What the program page_cases is run on: those jobs."""
    put_jobs(folder, jobs)
    (folder / "stdout").write_bytes(b"".join(f"{name}.job\n".encode() + answers[name] for name in jobs))


def main(crates):
    jobs = dict(whole_list())
    answers = {name: answer(text) for name, text in jobs.items()}
    missing = list(lacking(answers))
    if missing:
        sys.exit(f"the list lacks {missing}")
    put_page(pathlib.Path(crates) / "page")
    put_large_page(pathlib.Path(crates) / "large_page")
    put_cases(pathlib.Path(crates) / "page_cases", jobs, answers)
    figures = Counter(text.split(b"\n", 1)[0].decode() if text.startswith(b"refused") else "best" for text in answers.values())
    print(f"{len(jobs)} jobs: " + ", ".join(f"{count} {line.replace(chr(9), ' ')}" for line, count in sorted(figures.items())))


if __name__ == "__main__":
    main(sys.argv[1])
