// Datatypes, as lines of a sheet and as HDF5's.
#include "bench.h"
#include <stdarg.h>
#include <stdio.h>
#include <stdlib.h>
#include <string.h>

static void add_line(Side *s, const char *format, ...) {
    size_t used = strlen(s->sheet), room = sizeof s->sheet - used;
    va_list arguments;
    va_start(arguments, format);
    int len = vsnprintf(s->sheet + used, room, format, arguments);
    va_end(arguments);
    if (len < 0 || (size_t)len >= room) {
        fprintf(stderr, "a sheet is too long\n");
        exit(1);
    }
}

static Type added(Side *s, int size, hid_t h5) {
    s->size = size;
    s->h5 = h5;
    return (Type){s->types++, size, h5};
}

Type add_int(Side *s, Int l) {
    const char *pad = l.keep ? "keep" : "zero";
    add_line(s, "int\t%d\t%s\t%d\t%d\t%s\t%s\t%s\n", l.size, l.big ? "BE" : "LE", l.offset, l.precision, pad, pad, l.is_signed ? "signed" : "unsigned");
    hid_t h5 = 0;
#ifdef WITH_HDF5
    h5 = H5Tcopy(l.is_signed ? H5T_STD_I64LE : H5T_STD_U64LE);
    H5Tset_precision(h5, (size_t)l.precision);
    H5Tset_size(h5, (size_t)l.size);
    H5Tset_offset(h5, (size_t)l.offset);
    H5Tset_order(h5, l.big ? H5T_ORDER_BE : H5T_ORDER_LE);
    if (l.keep)
        H5Tset_pad(h5, H5T_PAD_BACKGROUND, H5T_PAD_BACKGROUND);
#endif
    return added(s, l.size, h5);
}

Type add_real(Side *s, int big) {
    add_line(s, "real\t8\t%s\n", big ? "BE" : "LE");
    hid_t h5 = 0;
#ifdef WITH_HDF5
    h5 = H5Tcopy(big ? H5T_IEEE_F64BE : H5T_NATIVE_DOUBLE);
#endif
    return added(s, 8, h5);
}

Type add_array(Side *s, Type base, int n) {
    add_line(s, "array\t%d\t%d\n", base.number, n);
    hid_t h5 = 0;
#ifdef WITH_HDF5
    hsize_t dims[1] = {(hsize_t)n};
    h5 = H5Tarray_create2(base.h5, 1, dims);
#endif
    return added(s, n * base.size, h5);
}

Type add_enum(Side *s, Type base) {
    add_line(s, "enum\t%d\n", base.number);
    hid_t h5 = 0;
#ifdef WITH_HDF5
    h5 = H5Tenum_create(base.h5);
#endif
    return added(s, base.size, h5);
}

void add_value(Side *s, Type of, const char *name, int number) {
    add_line(s, "value\t%s\t%d\n", name, number);
#ifdef WITH_HDF5
    uint8_t bytes[8] = {0};
    hid_t base = H5Tget_super(of.h5);
    memcpy(bytes, &number, sizeof number);
    H5Tconvert(H5T_NATIVE_INT, base, 1, bytes, NULL, H5P_DEFAULT);
    H5Tenum_insert(of.h5, name, bytes);
    H5Tclose(base);
#else
    (void)of;
#endif
}

Type add_compound(Side *s, int size) {
    add_line(s, "comp\t%d\n", size);
    hid_t h5 = 0;
#ifdef WITH_HDF5
    h5 = H5Tcreate(H5T_COMPOUND, (size_t)size);
#endif
    return added(s, size, h5);
}

void add_member(Side *s, Type of, const char *name, int at, Type type) {
    add_line(s, "member\t%s\t%d\t%d\n", name, at, type.number);
#ifdef WITH_HDF5
    H5Tinsert(of.h5, name, (size_t)at, type.h5);
#else
    (void)of;
#endif
}

void add_word(Side *s, const char *word) {
    s->sheet[strlen(s->sheet) - 1] = '\0';
    add_line(s, "\t%s\n", word);
}
