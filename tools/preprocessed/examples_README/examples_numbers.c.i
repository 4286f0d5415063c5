# 0 "examples/numbers.c"
# 0 "<built-in>"
# 0 "<command-line>"
# 1 "examples/numbers.c"

# 1 "include/stddef.h" 1 3 4
# 9 "include/stddef.h" 3 4

# 9 "include/stddef.h" 3 4
typedef unsigned long size_t;
typedef long ptrdiff_t;
# 3 "examples/numbers.c" 2


# 4 "examples/numbers.c"
struct parser {
    const char *text;
    size_t at;
    size_t end;
};

static int peek(const struct parser *parser)
{
    return parser->text[parser->at];
}

static int is_digit(int c)
{
    return c >= '0' && c <= '9';
}


int parse(struct parser *parser, long *number)
{
    long value = 0;
    int is_negative = 0;
    if (parser->at == parser->end)
        return 0;
    if (peek(parser) == '-') {
        is_negative = 1;
        parser->at++;
    }
    if (!is_digit(peek(parser)))
        return 0;
    while (parser->at < parser->end && is_digit(peek(parser))) {
        value = value * 10 + (peek(parser) - '0');
        parser->at++;
    }
    *number = is_negative ? -value : value;
    return 1;
}


long parse_text(void)
{
    char text[] = "-42";
    struct parser parser = {0, 0, 3};
    long number = 0;
    parser.text = text;
    if (!parse(&parser, &number))
        return -1;
    return number;
}


long parse_block(const char block[2])
{
    struct parser parser = {0, 0, 2};
    long number = 0;
    parser.text = block;
    if (!parse(&parser, &number))
        return -1;
    return number;
}


long parse_last(const char block[2])
{
    struct parser parser = {0, 1, 2};
    long number = 0;
    parser.text = block;
    return parse(&parser, &number) ? number : -1;
}
