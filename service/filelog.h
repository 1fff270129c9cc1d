/* The file's first page. Numbers in it have their most significant byte first; all but the two tails is written once, by file_create. */
#ifndef SERVICE_FILELOG_H
#define SERVICE_FILELOG_H

enum {
    FILE_PAGE = 4096,     /* of the file's first part; slot o is at FILE_PAGE + 256 * o */
    FILE_MAGIC = 0,       /* 8 bytes, "STOCKLOG" */
    FILE_FORMAT = 8,      /* 4 bytes, 1 */
    FILE_DIRECTORY = 12,  /* 4 bytes, the directory's length */
    FILE_SLOTS = 16,      /* 8 bytes */
    FILE_TAIL = 64,       /* 8 bytes: how many slots are used. It is synced before FILE_SHOWN follows it */
    FILE_SHOWN = 72,      /* 8 bytes: what those who hold no lock may read. A tail up to here is on the disk */
    FILE_NAMES = 1024,    /* 64 names of 32 bytes */
    FILE_RECORDS = 3072   /* the directory's records */
};

#endif
