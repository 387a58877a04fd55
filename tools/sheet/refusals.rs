//! The table of refusals. Made by tools/refusals from docs/REFUSALS.md.

/// A number, what it means, what its place is, and what to do.
pub struct Entry {
    pub number: u32,
    pub meaning: &'static str,
    pub place: &'static str,
    pub remedy: &'static str,
}

pub const TABLE: [Entry; 26] = [
    Entry {
        number: 1,
        meaning: "the first word is not the head of a sheet: its kind is not 1, or bits 24 to 27 are above 7; or, by a writer of sheets, there are not 1 to 8 right sides",
        place: "0",
        remedy: "See whether the file is a sheet. A card begins with kind 5; write of tools/sheet makes a sheet of a text; else the bytes of a word may stand in the wrong order. More than 8 right sides take several sheets.",
    },
    Entry {
        number: 2,
        meaning: "p is not a prime from 2 to 65,521",
        place: "0",
        remedy: "Correct p.",
    },
    Entry {
        number: 3,
        meaning: "there are not 1 to 8 rows and 1 to 8 columns",
        place: "0",
        remedy: "Correct the numbers of rows and columns. A larger system is beyond the limits.",
    },
    Entry {
        number: 4,
        meaning: "a word of the sheet is missing: it stops before its end word",
        place: "the number of words that are there",
        remedy: "Take the whole file; it was cut off, or its writer stopped early.",
    },
    Entry {
        number: 5,
        meaning: "the start of a polynomial, a coefficient or the end of the sheet is due, and another kind of word is found",
        place: "that word",
        remedy: "Compare the count in the last start word with the coefficients behind it, and the number of polynomials with the rows, the columns and the number of right sides in the head.",
    },
    Entry {
        number: 6,
        meaning: "a polynomial of the sheet has more than 16 coefficients",
        place: "that word, which is its start",
        remedy: "Degrees above 15 are beyond the limits.",
    },
    Entry {
        number: 7,
        meaning: "a coefficient of the sheet is p or more",
        place: "that word",
        remedy: "Reduce the coefficients modulo p.",
    },
    Entry {
        number: 8,
        meaning: "the last coefficient of a polynomial of the sheet is 0",
        place: "that word",
        remedy: "Leave out zeros behind the highest power; the zero polynomial has no coefficients.",
    },
    Entry {
        number: 9,
        meaning: "the end word of the sheet does not say how many words there are, or words follow it",
        place: "the end word; or the first word behind it",
        remedy: "Words were lost or added on the way: take the file anew. One file holds one sheet.",
    },
    Entry {
        number: 10,
        meaning: "a file is not whole words of four bytes, or that of a sheet has more than 8,712 bytes",
        place: "0",
        remedy: "Take the whole file, copied as bytes and not as text.",
    },
    Entry {
        number: 11,
        meaning: "fewer words are lent than the longest card has, or, by a writer of sheets, than the longest sheet has",
        place: "0",
        remedy: "Lend 2,198 words (8,792 bytes) for a card, 2,178 words (8,712 bytes) for a sheet, whatever their length will be.",
    },
    Entry {
        number: 12,
        meaning: "there is no polynomial of that number",
        place: "0",
        remedy: "Polynomials count from 0 in written order, in each file: a sheet with k right sides has n*m + k*n, a solution card m + n + 2, an absence card n.",
    },
    Entry {
        number: 21,
        meaning: "the first word is not the head of a card: its kind is not 5, or its payload is not 1 or 2",
        place: "0",
        remedy: "See whether the file is a card, and stands behind its sheet in the call.",
    },
    Entry {
        number: 24,
        meaning: "a word of the card is missing: it stops before its end word",
        place: "the number of words that are there",
        remedy: "Take the whole file. Or the card is for a sheet with more rows or columns.",
    },
    Entry {
        number: 25,
        meaning: "the start of a polynomial, a coefficient or the end of the card is due, and another kind of word is found",
        place: "that word",
        remedy: "See whether the card is for this sheet: how many polynomials are due follows from its rows and columns.",
    },
    Entry {
        number: 26,
        meaning: "a polynomial of the card has more than 121 coefficients",
        place: "that word, which is its start",
        remedy: "Degrees above 120 are beyond the limits; every sheet has a card within them.",
    },
    Entry {
        number: 27,
        meaning: "a coefficient of the card is p or more",
        place: "that word",
        remedy: "See whether the card is for this sheet, which has the p; else reduce the coefficients modulo p.",
    },
    Entry {
        number: 28,
        meaning: "the last coefficient of a polynomial of the card is 0",
        place: "that word",
        remedy: "Leave out zeros behind the highest power; the zero polynomial has no coefficients.",
    },
    Entry {
        number: 29,
        meaning: "the end word of the card does not say how many words there are, or words follow it",
        place: "the end word; or the first word behind it",
        remedy: "Words were lost or added on the way: take the file anew.",
    },
    Entry {
        number: 31,
        meaning: "d or w is not monic",
        place: "0 for d, which is tried first; 1 for w",
        remedy: "Divide d and N, or w and Z, by the leading coefficient. A d or w of zero is no denominator.",
    },
    Entry {
        number: 32,
        meaning: "A*N is not d*b",
        place: "the first such row",
        remedy: "N/d does not solve the system: see whether sheet and card are a pair, and the card is for the right side that is meant.",
    },
    Entry {
        number: 33,
        meaning: "w does not divide Z*A",
        place: "the first such column",
        remedy: "Z/w proves nothing about denominators: find another.",
    },
    Entry {
        number: 34,
        meaning: "the denominators differ: w divided by the greatest common divisor of w and Z*b, made monic, is not d",
        place: "0",
        remedy: "N/d may be a solution and have too large a denominator, or N and d a common factor, or Z/w does not show that d is the least.",
    },
    Entry {
        number: 35,
        meaning: "q*A is not zero",
        place: "the first such column",
        remedy: "q does not show that there is no solution: see whether sheet and card are a pair.",
    },
    Entry {
        number: 36,
        meaning: "q*b is zero",
        place: "0",
        remedy: "q does not show that there is no solution; there may be one. See whether the card is for the right side that is meant.",
    },
    Entry {
        number: 40,
        meaning: "the sheet has no right side of that number",
        place: "0",
        remedy: "Right sides count from 0: a sheet with one has number 0 only. show of tools/sheet shows each right side of a sheet as a b. A program that was compiled before 0.10 passes no right side: compile it anew.",
    },
];
