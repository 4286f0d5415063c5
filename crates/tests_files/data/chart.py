#!/usr/bin/env python3
"""A chart parser of the grammar of files, as slow as it is plain.

    chart.py                            prints the tables of `src/edited.rt`
    chart.py compare PROGRAM [COUNT]    compares the refusals of the program csa with its own, for so many files changed at random

The grammar stands below as it is written down (C11 6.5 to 6.9, less what csa leaves out), without typedef names. A token is a viable
next one where the chart has a state that reads it (Earley, 1970): so the first refused token is found without any cleverness.
"""

import subprocess
import sys
from random import Random

NAMES = {"name", "label"}

RULES = """
file      = | file external
external  = specs ; | typedef specs declrs ; | specs inits ; | specs head ; | specs named block
declrs    = declr | declrs , declr
inits     = init | inits , init
specs     = before type behind
before    = | before static | before const
behind    = | behind static | behind const
type      = plain | struct label { members } | struct { members } | enum label { enums } | enum { enums }
plain     = int | void | char | short | long | signed | unsigned | struct label | enum label
inner     = constants plain constants
constants = | constants const
members   = | members member
member    = specs fields ;
fields    = field | fields , field
field     = stars label sizes
sizes     = | sizes [ cond ]
enums     = list | list ,
list      = constant | list , constant
constant  = name | name = cond
stars     = | stars * | starred const
starred   = stars * | starred const
declr     = stars name bounds
bounds    = | bounds [ cond ] | bounds [ ]
head      = stars name ( params )
params    = | void | some
some      = param | some , param
param     = specs stars bounds | specs stars name bounds
named     = stars name ( nameds )
nameds    = | void | each
each      = one | each , one
one       = specs stars name bounds
init      = declr | declr = initial
initial   = assign | { initials } | { initials , }
initials  = initial | initials , initial
block     = { items }
items     = | items item
item      = inner inits ; | stmt
stmt      = open | closed
simple    = block | ; | expr ; | do stmt while ( expr ) ; | switch ( expr ) { cases } | goto label ; | continue ; | break ;
simple    = return ; | return expr ;
closed    = simple | if ( expr ) closed else closed | while ( expr ) closed | loop closed | label : closed
open      = if ( expr ) stmt | if ( expr ) closed else open | while ( expr ) open | loop open | label : open
loop      = for ( any ; any ; any ) | for ( inner inits ; any ; any )
any       = | expr
cases     = | cases case cond : | cases default : | cases item
expr      = assign | expr , assign
assign    = cond | unary = assign
cond      = or | or ? expr : cond
or        = and | or || and
and       = bit_or | and && bit_or
bit_or    = xor | bit_or '|' xor
xor       = bit_and | xor ^ bit_and
bit_and   = equal | bit_and & equal
equal     = order | equal == order | equal != order
order     = shift | order < shift | order > shift | order <= shift | order >= shift
shift     = sum | shift << sum | shift >> sum
sum       = product | sum + product | sum - product
product   = cast | product * cast | product / cast | product % cast
cast      = unary | ( inner stars sizes ) cast
unary     = postfix | ++ unary | -- unary | & cast | * cast | + cast | - cast | ~ cast | ! cast
unary     = sizeof unary | sizeof ( inner stars sizes )
postfix   = primary | postfix [ expr ] | postfix ( ) | postfix ( args ) | postfix . label | postfix -> label
postfix   = postfix ++ | postfix --
args      = assign | args , assign
primary   = name | number | ( expr )
"""

FILE = """
struct node { int value ; struct node * next ; } ;
int keep ( int value ) ;
static int value_of ( const struct node * n ) { return n -> value ; }
int drop_second ( struct node * head ) {
struct node * gone ;
gone = head -> next ;
if ( keep ( gone -> value ) ) return 0 ;
head -> next = gone -> next ;
gone -> next = 0 ;
return 1 ; }
"""

# the productions that have a declarator's name
DECLARATORS = {"field", "declr", "head", "named", "param", "one"}
# the productions of expressions, and words that are unsupported anywhere
EXPRESSIONS = {"expr", "assign", "cond"}
WORDS = {"float", "union", "..."}

# another file, for changes at random
MORE = """
enum color { red , green = 2 , blue } ;
int table [ 3 ] = { 1 , 2 , 3 } , * last = & table [ 2 ] ;
struct pair { int a , b [ 2 ] ; struct pair * next ; } pairs [ 2 ] = { { 1 , { 2 , 3 } } , } ;
static const int limit = sizeof ( int * ) * 4 ;
int walk ( int n , char * text , int ) ;
int walk ( int n , char * text , int size ) {
int i , sum = 0 ;
for ( i = 0 ; i < n ; i ++ ) { if ( text [ i ] ) continue ; sum = sum + ( char ) table [ i % 3 ] ; }
do { sum -- ; } while ( sum > 10 && ! n ) ;
switch ( n ) { case 1 : return 1 ; default : break ; }
again : while ( sum ) { struct pair one ; one . a = sum ; sum = one . a - 1 ; if ( sum == 3 ) goto again ; else { ; } }
return n ? sum : - 1 , walk ( n - 1 , text , sizeof sum ) ; }
"""

KEYWORDS = set(
    "break case char const continue default do else enum for goto if int long return short signed sizeof static struct switch typedef "
    "unsigned void while".split()
)
ACCEPTED = 999


def grammar():
    """For each symbol its alternatives, each a list of symbols and tokens."""
    rules = {}
    for line in RULES.strip().splitlines():
        name, right = line.split("=", 1)
        for alternative in right.split(" | "):
            symbols = [symbol.strip("'") for symbol in alternative.strip().removeprefix("|").split()]
            rules.setdefault(name.strip(), []).append(symbols)
    return rules


GRAMMAR = grammar()


def empty_symbols():
    """The symbols that no token at all may stand for."""
    found = set()
    while True:
        more = {n for n, all in GRAMMAR.items() if any(all_in(a, found) for a in all)} | found
        if more == found:
            return found
        found = more


def all_in(symbols, found):
    return all(symbol in found for symbol in symbols)


EMPTY = empty_symbols()


def reads(symbol, token):
    """Whether a symbol that is none of the grammar is this token."""
    if symbol in NAMES:
        return token.isidentifier() and token not in KEYWORDS | WORDS
    if symbol == "number":
        return token.isdigit()
    return symbol == token


def completed(chart, start, end, symbol):
    """The states that go on behind a symbol that ended here."""
    for name, which, done, begun in list(chart[start]):
        right = GRAMMAR[name][which]
        if done < len(right) and right[done] == symbol:
            yield (name, which, done + 1, begun)


def close(chart, end):
    """Adds to the last states all that follow from them without a token."""
    states = chart[end]
    agenda = list(states)
    while agenda:
        name, which, done, begun = agenda.pop()
        right = GRAMMAR[name][which]
        if done == len(right):
            new = list(completed(chart, begun, end, name))
        elif right[done] in GRAMMAR:
            new = [(right[done], number, 0, end) for number in range(len(GRAMMAR[right[done]]))]
            if right[done] in EMPTY:
                new.append((name, which, done + 1, begun))
        else:
            new = []
        for state in new:
            if state not in states:
                states.add(state)
                agenda.append(state)


def next_symbol(state):
    """The symbol that a state awaits, and nothing where it is complete."""
    name, which, done, _ = state
    return GRAMMAR[name][which][done] if done < len(GRAMMAR[name][which]) else None


def around(chart, states):
    """These states and those that await what they are parts of."""
    found, agenda = set(states), list(states)
    while agenda:
        name, _, _, begun = agenda.pop()
        for state in chart[begun]:
            if next_symbol(state) == name and state not in found:
                found.add(state)
                agenda.append(state)
    return found


def is_inside(chart, place):
    """Whether a place is inside a block or an expression: a brace of a block is open, or a token of an expression may be next."""
    reading = {state for state in chart[place] if next_symbol(state) is not None and next_symbol(state) not in GRAMMAR}
    in_block = any(name == "block" and done > 0 for name, _, done, _ in around(chart, reading))
    return in_block or any(name in EXPRESSIONS for state in reading for name, _, _, _ in around(chart, {state}))


def is_unsupported(chart, tokens, place):
    """Whether the refused token with this number is unsupported there."""
    token, states = tokens[place], chart[place]
    if token in WORDS:
        return True
    if token == "(":
        # where a declarator's name may be
        return any(state[0] in DECLARATORS and next_symbol(state) in NAMES for state in states)
    if token in {".", "["}:
        return any(name == "initial" and done == 0 for name, _, done, _ in states)
    if token == ":":
        return any(name == "member" and done == 2 for name, _, done, _ in states)
    if token in {"static", "typedef"}:
        return is_inside(chart, place)
    if token == "{":
        words = {"struct", "enum"}
        named = place > 1 and tokens[place - 2] in words and reads("label", tokens[place - 1])
        after_tag = named or (place > 0 and tokens[place - 1] in words)
        after_type = any(name in {"cast", "unary"} and done > 4 and GRAMMAR[name][which][done - 1] == ")" for name, which, done, _ in states)
        return after_type or (after_tag and is_inside(chart, place))
    return False


def refused(tokens):
    """The number of the first token with which no file goes on, the end being one, and whether it is unsupported; ACCEPTED where they are
    a file."""
    chart = [{("file", number, 0, 0) for number in range(len(GRAMMAR["file"]))}]
    close(chart, 0)
    for place, token in enumerate(tokens):
        after = {
            (name, which, done + 1, begun)
            for name, which, done, begun in chart[place]
            if done < len(GRAMMAR[name][which])
            and GRAMMAR[name][which][done] not in GRAMMAR
            and reads(GRAMMAR[name][which][done], token)
        }
        if not after:
            return place, is_unsupported(chart, tokens, place)
        chart.append(after)
        close(chart, place + 1)
    whole = any(n == "file" and d == len(GRAMMAR[n][w]) and b == 0 for n, w, d, b in chart[-1])
    return (ACCEPTED if whole else len(tokens)), False


def table(change, all):
    """A row of the table: the numbers of the refused tokens, and for which changes they are unsupported."""
    found = [refused(tokens) for tokens in all]
    numbers = ["A" if number == ACCEPTED else str(number) for number, _ in found]
    print(f"{change}: {' '.join(numbers)}: {' '.join(str(at) for at, (_, out) in enumerate(found) if out)}")


def changed(random, tokens):
    """The tokens with one or two changes."""
    pool = sorted((set(FILE.split()) | set(MORE.split()) | WORDS) - {"typedef"})
    marks = ["(", "{", ".", "[", ":", ",", "static", "struct"]
    tokens = list(tokens)
    for _ in range(random.randint(1, 2)):
        at = random.randrange(len(tokens))
        change = random.randrange(10)
        if change == 0 and at:
            del tokens[at:]
        elif change == 1:
            tokens.insert(at, tokens[at])
        elif change == 2:
            tokens[at : at + 2] = tokens[at : at + 2][::-1]
        elif change < 5:
            del tokens[at]
        elif change < 8:
            tokens[at] = random.choice(random.choice([pool, marks]))
        else:
            tokens.insert(at, random.choice(random.choice([pool, marks])))
    return tokens


def line_of(tokens):
    """The line that csa refuses these tokens with, each followed by a space; nothing where they are a file."""
    number, out = refused(tokens)
    if number == ACCEPTED:
        return ""
    place = f"<input>:1:{sum(len(token) + 1 for token in tokens[:number]) + 1}"
    return f"refused left-out {tokens[number]} {place}\n" if out else f"refused syntax {place}\n"


def compare(program, count):
    """Prints the changed files that the program answers otherwise than the chart parser, and how many were refused."""
    random, seen, others = Random(1), 0, 0
    for number in range(count):
        tokens = changed(random, [FILE, MORE][number % 2].split())
        wanted = line_of(tokens)
        text = "".join(f"{token} " for token in tokens)
        found = subprocess.run([program, "analyze"], input=text, capture_output=True, text=True).stdout
        if not found.startswith(("refused syntax ", "refused left-out ", "refused too-deep ", "refused lex ")):
            found = ""
        seen += wanted != ""
        if found != wanted:
            others += 1
            print(f"{text}\n  chart: {wanted.strip()}\n  csa: {found.strip()}")
    print(f"{count} files, {seen} refused, {others} answered otherwise")


def main():
    if sys.argv[1:2] == ["compare"]:
        compare(sys.argv[2], int(sys.argv[3]) if sys.argv[3:] else 3000)
        return
    tokens = FILE.split()
    count = len(tokens)
    table("beginnings", [tokens[:n] for n in range(count + 1)])
    table("removed", [tokens[:n] + tokens[n + 1 :] for n in range(count)])
    table("twice", [tokens[: n + 1] + tokens[n:] for n in range(count)])
    for other in [";", "(", "x", ","]:
        table(other, [tokens[:n] + [other] + tokens[n + 1 :] for n in range(count)])


main()
