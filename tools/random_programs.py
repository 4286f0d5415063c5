"""Programs made at random, and inputs for their runs: for try-programs and try-gcc."""
import random

INTEGERS = ["int", "unsigned", "char", "short", "long", "unsigned char"]
STRUCT = "struct node{int value;struct node*next;int list[3];};"


class Body:
    """A function's body, grown at random."""

    def __init__(self, rng, earlier):
        self.rng, self.earlier, self.depth, self.loops = rng, earlier, 0, 0
        self.parameters = [(rng.choice(INTEGERS), "x"), (rng.choice(INTEGERS), "y")]
        self.numbers = ["x", "y"]
        self.pointers, self.nodes, self.arrays = [], [], []
        if rng.random() < 0.5:
            self.parameters.append(("int*", "p"))
            self.pointers.append("p")
        if rng.random() < 0.4:
            self.parameters.append(("struct node*", "n"))
            self.nodes.append("n")

    def number(self, depth=0):
        """An expression of an integer."""
        pick = self.rng.random()
        if depth > 2 or pick < 0.3:
            return self.rng.choice(self.numbers)
        if pick < 0.45:
            return str(self.rng.choice([0, 1, 2, 3, 5, 7, 10, 100, 255]))
        if pick < 0.75:
            operator = self.rng.choice(["+", "-", "*", "+", "-", "&", "|", "^", "<", "==", "!=", "<="])
            return f"({self.number(depth + 1)}{operator} {self.number(depth + 1)})"
        if pick < 0.82:
            return f"({self.number(depth + 1)}{self.rng.choice(['/', '%'])} {self.number(depth + 1)})"
        if pick < 0.86:
            return f"({self.number(depth + 1)}{self.rng.choice(['<<', '>>'])}{self.rng.choice(['1', '2', self.number(depth + 2)])})"
        if pick < 0.91 and self.pointers:
            return f"*{self.rng.choice(self.pointers)}"
        if pick < 0.95 and self.nodes:
            return f"{self.rng.choice(self.nodes)}->value"
        if pick < 0.98 and self.arrays:
            return f"{self.rng.choice(self.arrays)}[{self.rng.choice(['0', '1', '2', self.rng.choice(self.numbers)])}]"
        if self.earlier and depth == 0:
            return self.call()
        return f"(-{self.number(depth + 1)})"

    def call(self):
        name, parameters = self.rng.choice(self.earlier)
        given = []
        for ty, _ in parameters:
            if ty == "int*":
                given.append(self.rng.choice(self.pointers) if self.pointers else "(int*)0")
            elif ty == "struct node*":
                given.append(self.rng.choice(self.nodes) if self.nodes else "(struct node*)0")
            else:
                given.append(self.rng.choice(self.numbers))
        return f"{name}({','.join(given)})"

    def test(self):
        pick = self.rng.random()
        if pick < 0.15 and self.pointers:
            return self.rng.choice(self.pointers)
        if pick < 0.3 and self.nodes:
            return f"{self.rng.choice(self.nodes)}!=0"
        return f"{self.number(1)}{self.rng.choice(['<', '>', '==', '!=', '<=', '>='])}{self.number(1)}"

    def block(self, count):
        marks = len(self.numbers), len(self.pointers), len(self.nodes), len(self.arrays)
        self.depth += 1
        text = "".join(self.statement() for _ in range(count))
        self.depth -= 1
        for names, mark in zip((self.numbers, self.pointers, self.nodes, self.arrays), marks):
            del names[mark:]
        return "{" + text + "}"

    def local(self, kinds):
        name = f"{kinds[0]}{self.depth}{len(self.numbers) + len(self.pointers) + len(self.nodes) + len(self.arrays)}"
        return name

    def statement(self):
        rng, pick = self.rng, self.rng.random()
        if pick < 0.14:
            name = self.local("v")
            ty = rng.choice(INTEGERS)
            text = f"{ty} {name};" if rng.random() < 0.12 else f"{ty} {name}={self.number()};"
            self.numbers.append(name)
            return text
        if pick < 0.2:
            name = self.local("a")
            self.arrays.append(name)
            return f"int {name}[3]={{1,2}};" if rng.random() < 0.7 else f"int {name}[3];"
        if pick < 0.26:
            name = self.local("q")
            text = f"int*{name}=" + rng.choice(["malloc(sizeof(int))", "calloc(2,sizeof(int))", f"&{rng.choice(self.arrays)}[1]" if self.arrays else "0"]) + ";"
            self.pointers.append(name)
            return text
        if pick < 0.3:
            name = self.local("m")
            text = f"struct node*{name}=malloc(sizeof(struct node));if(!{name})return 0;{name}->value={self.number(1)};{name}->next={rng.choice(self.nodes) if self.nodes else '0'};"
            self.nodes.append(name)
            return text
        if pick < 0.42:
            return f"{rng.choice(self.numbers)}={self.number()};"
        if pick < 0.48 and self.pointers:
            return f"*{rng.choice(self.pointers)}={self.number(1)};"
        if pick < 0.52 and self.nodes:
            one = rng.choice(self.nodes)
            return rng.choice([f"{one}->value={self.number(1)};", f"if({one})if({one}->next){one}={one}->next;", f"{one}->list[{rng.choice(self.numbers)}]=1;"])
        if pick < 0.56 and self.arrays:
            return f"{rng.choice(self.arrays)}[{rng.choice(['0', '2', rng.choice(self.numbers)])}]={self.number(1)};"
        if pick < 0.6 and self.pointers:
            return f"free({rng.choice(self.pointers)});" if rng.random() < 0.4 else f"if({rng.choice(self.pointers)}){rng.choice(self.numbers)}=*{rng.choice(self.pointers)};"
        if self.depth < 3 and pick < 0.8:
            text = f"if({self.test()}){self.block(rng.randint(1, 2))}"
            return text + (f"else{self.block(1)}" if rng.random() < 0.4 else "")
        if self.depth < 2 and self.loops < 1 and pick < 0.88:
            self.loops += 1
            name = f"i{self.loops}"
            self.numbers.append(name)
            body = self.block(1)
            self.numbers.remove(name)
            return f"{{int {name};for({name}=0;{name}<{rng.choice(['2', '3', rng.choice(self.numbers)])};{name}++){body}}}"
        if self.depth < 3 and pick < 0.92:
            return f"switch({rng.choice(self.numbers)}){{case 1:{rng.choice(self.numbers)}={self.number(1)};break;case 5:return {self.number(1)};default:break;}}"
        if pick < 0.95:
            return f"return {self.number()};" if self.depth > 0 else ""
        return f"{rng.choice(self.numbers)}{rng.choice(['+=', '-=', '*='])}{self.number(1)};"


def program_of(seed):
    rng, earlier, text = random.Random(seed), [], STRUCT + "\n"
    for number in range(rng.randint(1, 3)):
        body = Body(rng, earlier)
        inner = body.block(rng.randint(3, 6))
        parameters = ",".join(f"{ty} {name}" for ty, name in body.parameters)
        text += f"int f{number}({parameters}){inner[:-1]}return {rng.choice(['0', 'x', 'y'])};}}\n"
        earlier.append((f"f{number}", body.parameters))
    return text, earlier


def inputs_of(rng, parameters):
    words = []
    for ty, name in parameters:
        if ty.endswith("*"):
            if rng.random() < 0.7:
                words.append(f"{name}=1")
                words.append(f"{name}@0={number_of(rng)}")
                if ty == "struct node*" and rng.random() < 0.5:
                    words += [f"{name}@8=1", f"{name}@8@0={number_of(rng)}"]
        else:
            words.append(f"{name}={number_of(rng)}")
    for call in range(1, 3):
        if rng.random() < 0.8:
            words.append(f"malloc#{call}=1")
    return words


def number_of(rng):
    return rng.choice([0, 1, -1, 2, 3, 5, 7, 100, 255, rng.randint(-10, 10), rng.randint(-2**31, 2**31 - 1)])
