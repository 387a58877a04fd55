// The numbers of refusals, and a sentence for each. Made by tools/refusals from docs/REFUSALS.md, which also says what to do.
#ifndef YEZSDOLAK_REFUSALS_H
#define YEZSDOLAK_REFUSALS_H

enum {
    // The words of a sheet.
    YEZSDOLAK_BAD_SYSTEM_HEAD = 1, // place: 0
    YEZSDOLAK_NOT_PRIME = 2, // place: 0
    YEZSDOLAK_BAD_SHAPE = 3, // place: 0
    YEZSDOLAK_SYSTEM_ENDS_EARLY = 4, // place: the number of words that are there
    YEZSDOLAK_SYSTEM_WRONG_KIND = 5, // place: that word
    YEZSDOLAK_SYSTEM_TOO_MANY_COEFFICIENTS = 6, // place: that word, which is its start
    YEZSDOLAK_SYSTEM_COEFFICIENT_TOO_LARGE = 7, // place: that word
    YEZSDOLAK_SYSTEM_LAST_COEFFICIENT_ZERO = 8, // place: that word
    YEZSDOLAK_SYSTEM_BAD_END = 9, // place: the end word; or the first word behind it
    // The file, what is lent, what is asked for.
    YEZSDOLAK_BAD_FILE_LENGTH = 10, // place: 0
    YEZSDOLAK_SPACE_SHORT = 11, // place: 0
    YEZSDOLAK_NO_SUCH_POLYNOMIAL = 12, // place: 0
    // The words of a card.
    YEZSDOLAK_BAD_CERTIFICATE_HEAD = 21, // place: 0
    YEZSDOLAK_CERTIFICATE_ENDS_EARLY = 24, // place: the number of words that are there
    YEZSDOLAK_CERTIFICATE_WRONG_KIND = 25, // place: that word
    YEZSDOLAK_CERTIFICATE_TOO_MANY_COEFFICIENTS = 26, // place: that word, which is its start
    YEZSDOLAK_CERTIFICATE_COEFFICIENT_TOO_LARGE = 27, // place: that word
    YEZSDOLAK_CERTIFICATE_LAST_COEFFICIENT_ZERO = 28, // place: that word
    YEZSDOLAK_CERTIFICATE_BAD_END = 29, // place: the end word; or the first word behind it
    // What the card says.
    YEZSDOLAK_NOT_MONIC = 31, // place: 0 for d, which is tried first; 1 for w
    YEZSDOLAK_NOT_A_SOLUTION = 32, // place: the first such row
    YEZSDOLAK_COLUMN_NOT_DIVISIBLE = 33, // place: the first such column
    YEZSDOLAK_DENOMINATORS_DIFFER = 34, // place: 0
    YEZSDOLAK_NOT_A_KERNEL = 35, // place: the first such column
    YEZSDOLAK_NO_CONTRADICTION = 36, // place: 0
    // Which right side.
    YEZSDOLAK_NO_SUCH_SIDE = 40, // place: 0
    // The panel.
    YEZSDOLAK_BEYOND_PANEL = 41 // place: 0 for the sheet, which is tried first; 1 for the card
};

// The sentence for a number, without a dot at its end; never NULL. The number is that of a refusal, without its place.
static inline const char *yezsdolak_message(unsigned long long number)
{
    switch (number) {
    case 0:
        return "not refused";
    case YEZSDOLAK_BAD_SYSTEM_HEAD:
        return "the first word is not the head of a sheet: its kind is not 1, or bits 24 to 27 are above 7; or, by a writer of sheets, there are not 1 to 8 right sides";
    case YEZSDOLAK_NOT_PRIME:
        return "p is not a prime from 2 to 65,521";
    case YEZSDOLAK_BAD_SHAPE:
        return "there are not 1 to 8 rows and 1 to 8 columns";
    case YEZSDOLAK_SYSTEM_ENDS_EARLY:
        return "a word of the sheet is missing: it stops before its end word";
    case YEZSDOLAK_SYSTEM_WRONG_KIND:
        return "the start of a polynomial, a coefficient or the end of the sheet is due, and another kind of word is found";
    case YEZSDOLAK_SYSTEM_TOO_MANY_COEFFICIENTS:
        return "a polynomial of the sheet has more than 16 coefficients";
    case YEZSDOLAK_SYSTEM_COEFFICIENT_TOO_LARGE:
        return "a coefficient of the sheet is p or more";
    case YEZSDOLAK_SYSTEM_LAST_COEFFICIENT_ZERO:
        return "the last coefficient of a polynomial of the sheet is 0";
    case YEZSDOLAK_SYSTEM_BAD_END:
        return "the end word of the sheet does not say how many words there are, or words follow it";
    case YEZSDOLAK_BAD_FILE_LENGTH:
        return "a file is not whole words of four bytes, or that of a sheet has more than 8,712 bytes";
    case YEZSDOLAK_SPACE_SHORT:
        return "fewer words are lent than the longest card has, or, by a writer of sheets, than the longest sheet has";
    case YEZSDOLAK_NO_SUCH_POLYNOMIAL:
        return "there is no polynomial of that number";
    case YEZSDOLAK_BAD_CERTIFICATE_HEAD:
        return "the first word is not the head of a card: its kind is not 5, or its payload is not 1 or 2";
    case YEZSDOLAK_CERTIFICATE_ENDS_EARLY:
        return "a word of the card is missing: it stops before its end word";
    case YEZSDOLAK_CERTIFICATE_WRONG_KIND:
        return "the start of a polynomial, a coefficient or the end of the card is due, and another kind of word is found";
    case YEZSDOLAK_CERTIFICATE_TOO_MANY_COEFFICIENTS:
        return "a polynomial of the card has more than 121 coefficients";
    case YEZSDOLAK_CERTIFICATE_COEFFICIENT_TOO_LARGE:
        return "a coefficient of the card is p or more";
    case YEZSDOLAK_CERTIFICATE_LAST_COEFFICIENT_ZERO:
        return "the last coefficient of a polynomial of the card is 0";
    case YEZSDOLAK_CERTIFICATE_BAD_END:
        return "the end word of the card does not say how many words there are, or words follow it";
    case YEZSDOLAK_NOT_MONIC:
        return "d or w is not monic";
    case YEZSDOLAK_NOT_A_SOLUTION:
        return "A*N is not d*b";
    case YEZSDOLAK_COLUMN_NOT_DIVISIBLE:
        return "w does not divide Z*A";
    case YEZSDOLAK_DENOMINATORS_DIFFER:
        return "the denominators differ: w divided by the greatest common divisor of w and Z*b, made monic, is not d";
    case YEZSDOLAK_NOT_A_KERNEL:
        return "q*A is not zero";
    case YEZSDOLAK_NO_CONTRADICTION:
        return "q*b is zero";
    case YEZSDOLAK_NO_SUCH_SIDE:
        return "the sheet has no right side of that number";
    case YEZSDOLAK_BEYOND_PANEL:
        return "a sheet or card that reads in the office exceeds a limit of the panel: 4 rows, 4 columns, one right side, 8 coefficients in a polynomial of the sheet, 29 in one of the card, and so 302 words of a card";
    default:
        return "not the number of a refusal";
    }
}

#endif
