#!/usr/bin/env python3
"""What the program candidates_sweep must print: every call of the candidate set, and of the masks and digits beneath it, on all
65,536 masks. Made from the paper's words (module 1, stop 4; document 02, F-1) and sets of digits; it knows nothing of the program.

    python3 tools/candidates_sweep.py > crates/candidates_sweep/stdout

A line for each call and each number that it is handed beside the mask, NAME NUMBER CHECKSUM; where there is none, NAME CHECKSUM.
The checksum folds the answers on all masks, rising. An answer's number is
    a number, a mask      itself
    a digit               twice its size, and one more where it is negative
    a test                1 for yes, 0 for no
    single                the mask; a digit refused: 65,536 more than the digit's number
    contains              present 1, absent 0; a digit refused: 2 more than the digit's number
    insert                65,536 times the answer, and the mask; done 0, a digit refused: 1 more than the digit's number
    remove                likewise; was there 1, was not 0, a digit refused: 2 more than the digit's number
    single_candidate      1 more than the digit's number; empty 0, several 1
    iter                  the fold of its digits
"""

P = 2**56 - 5
DIGITS = [-2147483648, -1, 0, 1, 2, 3, 4, 5, 6, 7, 8, 9, 10, 2147483647]
PLACES = range(18)
MASKS = [0, 1, 73, 292, 511, 65535]
NINE = range(1, 10)


def fold(codes):
    total = 0
    for code in codes:
        total = (total * 31 + code) % P
    return total


# A mask as the set of its digits, 1 to 16, by its spelling in base 2: the last letter is digit 1.
SETS = [frozenset(16 - at for at, letter in enumerate(f"{mask:016b}") if letter == "1") for mask in range(65536)]
NUMBERS = {digits: mask for mask, digits in enumerate(SETS)}
# "Higher bits in a set that a caller made are dropped first": what is a candidate.
CANDIDATES = [[digit for digit in NINE if digit in digits] for digits in SETS]


def mask_of(digits):
    return NUMBERS[frozenset(digits)]


def of_digit(digit):
    return 2 * abs(digit) + (digit < 0)


def always(code):
    return [code] * 65536


def refused(base, digit):
    """Stop 4, "digit outside 1 to 9", with the digit."""
    return always(base + of_digit(digit))


def single(digit):
    return always(mask_of({digit})) if digit in NINE else refused(65536, digit)


def contains(digit):
    return [digit in held for held in CANDIDATES] if digit in NINE else refused(2, digit)


def kept(base, digit):
    """Stop 4 of a call that changes the set: "sets .. keep their contents"."""
    return [(base + of_digit(digit)) * 65536 + mask for mask in range(65536)]


def insert(digit):
    return [mask_of({*held, digit}) for held in CANDIDATES] if digit in NINE else kept(1, digit)


def remove(digit):
    return [(digit in held) * 65536 + mask_of(set(held) - {digit}) for held in CANDIDATES] if digit in NINE else kept(2, digit)


def single_candidate(held):
    return of_digit(held[0]) + 1 if len(held) == 1 else int(len(held) > 1)


# Places: digit d stands at place d - 1. A mask in code has the 16 places 0 to 15.
def digits_at(place):
    return {place + 1} & set(range(1, 17))


def place_of(digit):
    return digit - 1 if digit in NINE else 9


def digit_at(place):
    return of_digit(min(place, 16) + 1)


def first_digit(held, start):
    return min([digit - 1 for digit in held if digit - 1 >= start], default=max(start, 9))


def lowest_digit(digits):
    return min(digits, default=17) - 1


def lose_lowest(digits):
    return mask_of(sorted(digits)[1:])


def line(*words, codes):
    print(*words, fold(codes))


line("new", codes=always(mask_of([])))
line("full", codes=always(mask_of(NINE)))
line("clear", codes=always(mask_of([])))
line("len", codes=[len(held) for held in CANDIDATES])
line("is_empty", codes=[held == [] for held in CANDIDATES])
line("single_candidate", codes=[single_candidate(held) for held in CANDIDATES])
line("iter", codes=[fold(map(of_digit, held)) for held in CANDIDATES])
line("digit_count", codes=[len(digits) for digits in SETS])
line("lowest_digit", codes=[lowest_digit(digits) for digits in SETS])
line("lose_lowest", codes=[lose_lowest(digits) for digits in SETS])
line("is_none", codes=[len(digits) == 0 for digits in SETS])
line("is_one", codes=[len(digits) == 1 for digits in SETS])
line("is_two", codes=[len(digits) == 2 for digits in SETS])
for place in PLACES:
    line("has_digit", place, codes=[place + 1 in digits for digits in SETS])
    line("digit_mask", place, codes=always(mask_of(digits_at(place))))
    line("lose_digit", place, codes=[mask_of(digits - digits_at(place)) for digits in SETS])
    line("first_digit", place, codes=[first_digit(held, place) for held in CANDIDATES])
    line("digit_at", place, codes=always(digit_at(place)))
    for digit in DIGITS[place : place + 1]:
        line("single", digit, codes=single(digit))
        line("contains", digit, codes=contains(digit))
        line("insert", digit, codes=insert(digit))
        line("remove", digit, codes=remove(digit))
        line("place_of", digit, codes=always(place_of(digit)))
    for mask in MASKS[place : place + 1]:
        line("lose", mask, codes=[mask_of(digits - SETS[mask]) for digits in SETS])
        line("meet", mask, codes=[mask_of(digits & SETS[mask]) for digits in SETS])
        line("join", mask, codes=[mask_of(digits | SETS[mask]) for digits in SETS])
