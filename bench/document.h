/* Numbers of document 01 that the rivals share: ends of a run, kinds of places and of records, and their bytes. */
#ifndef DOCUMENT_H
#define DOCUMENT_H

enum end {
    END_TRAP = 1,
    END_OUTSIDE = 2,
    END_ILLEGAL = 3,
    END_MISALIGNED = 4,
    END_UNFIT = 5,
    END_NO_PLACE = 6,
    END_BAD_RECORD = 7,
    END_SAVES = 8,
    END_RESTORES = 9
};

enum place_kind { PLACE_PLAIN = 0, PLACE_SLOT = 1, PLACE_HELD = 2 };

enum kind {
    KIND_WORD = 1,
    KIND_LINK = 2,
    KIND_HOLD = 3,
    KIND_GO_IF = 4,
    KIND_GO = 5,
    KIND_GO_HELD = 6,
    KIND_END = 7
};

enum { RECORD_BYTES = 12, PLACE_BYTES = 16 };

#endif
