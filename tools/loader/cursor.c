#include "cursor.h"
#include "vexil_compat.h"

bool refuse(struct cursor *c, uint64_t number, size_t at, struct found found)
{
    c->fault.number = number;
    c->fault.place.at = at;
    c->fault.found = found;
    return false;
}

bool take(struct cursor *c, size_t count, const char *what)
{
    size_t left = c->end - c->at;
    if (left < count)
        return refuse(c, c->early, c->at, (struct found){what, BYTES_MISSING, count - left});
    c->at += count;
    return true;
}

uint64_t number_at(const uint8_t *bytes, size_t width)
{
    uint64_t number = 0;
    for (size_t i = width; i > 0; i--)
        number = number << 8 | bytes[i - 1];
    return number;
}

bool read_number(struct cursor *c, size_t width, const char *what, uint64_t *number)
{
    if (!take(c, width, what))
        return false;
    *number = number_at(c->image + c->at - width, width);
    return true;
}

bool read_code(struct cursor *c, const char *what, uint64_t least, uint64_t most, uint64_t *code)
{
    if (!read_number(c, 1, what, code))
        return false;
    return (*code >= least && *code <= most) || refuse(c, VEXIL_COMPAT_REFUSAL_CODE, c->at - 1, (struct found){what, VALUE, *code});
}

static bool is_allowed(uint8_t byte)
{
    return (byte >= 'a' && byte <= 'z') || (byte >= 'A' && byte <= 'Z') || (byte >= '0' && byte <= '9') || byte == '_';
}

bool read_name(struct cursor *c, const char *what)
{
    uint64_t length;
    if (!read_number(c, 1, "name length", &length) || !take(c, length, what))
        return false;
    for (size_t i = c->at - length; i < c->at; i++) {
        if (!is_allowed(c->image[i]))
            return refuse(c, VEXIL_COMPAT_REFUSAL_NAME, i, (struct found){what, BYTE_VALUE, c->image[i]});
    }
    return true;
}
