"""Texts of whole studies, by chance: right ones, and ones that are changed in a place or two.

A study is written down as a plan: blocks with items, each a keyword and the texts of its values. Changes are made to the
plan, and to the text that is written of it.
"""
from number_texts import WRONG_COUNTS, WRONG_NUMBERS, digits_of, limit_text, spelled
from study import FILES, KEYWORDS, MAY_HAVE, MODES, NEEDS, REFUSED, RULES, TABLE

METHODS = sorted(NEEDS)
TABLE_NAMES = ["t.dat", "t.dat", "u.dat", "a b.dat", "sub/t.dat", "./t.dat", "it's", "s.in", "sub", "none/t.dat", "n" * 300, " "]
# Of these only run.sh leaves values.
DRIVERS = ["run", " a  b ", "rosenbrock", "sh -c 'x # y, z = 1 \\'", "fork", "~", *["sh run.sh"] * 12, "sh  run.sh 'a # * $HOME "]
FILE_NAMES = ["p.in", "P.in", "r.out", " ", "a/b", "x" * 300, "params.in", "results.out"]


class Item:
    def __init__(self, word, values=()):
        self.word, self.values = word, [*values]


class Block:
    def __init__(self, word, items=()):
        self.word, self.items = word, [*items]


class Plan:
    """The blocks of a study, and what stands before them; n variables and m responses."""

    def __init__(self, n, m, blocks):
        self.n, self.m, self.blocks, self.front = n, m, blocks, []

    def places(self, test=lambda item: True):
        """The blocks and items that pass a test."""
        return [(block, it) for block in self.blocks for it in block.items if test(it)]

    def item(self, word, in_block=None):
        found = [it for block, it in self.places() if it.word == word and in_block in (None, block.word)]
        return found[0] if found else None

    def block(self, word):
        return next((it for it in self.blocks if it.word == word), None)

    def add(self, random, word, item):
        """Puts an item into a block, where the block is there."""
        block = self.block(word)
        if block:
            block.items.insert(random.randrange(len(block.items) + 1), item)

    def drop(self, word, in_block=None):
        for block in self.blocks:
            if in_block in (None, block.word):
                block.items = [it for it in block.items if it.word != word]

    def put(self, random, word, item):
        """Puts an item into a block in the place of those of its name."""
        self.drop(item.word, word)
        self.add(random, word, item)

    def tokens(self):
        tokens = [*self.front]
        for block in self.blocks:
            tokens.append(block.word)
            for item in block.items:
                tokens += [item.word, *item.values]
        return tokens


# Values


def quoted(random, text):
    """A string in quotes of one of the two kinds, where the text allows it."""
    quotes = [it for it in "'\"" if it not in text] or ["'"]
    quote = random.choice(quotes)
    return quote + text + quote


def starred(random, texts):
    """The texts of values, some of which are written `N*value`."""
    written, at = [], 0
    while at < len(texts):
        end = at + 1
        while end < len(texts) and texts[end] == texts[at] and random.random() < 0.9:
            end += 1
        if end - at > 1 and random.random() < 0.7 or random.random() < 0.05:
            written.append("0" * random.choice([0, 0, 0, 1, 9]) + f"{end - at}*{texts[at]}")
        else:
            written += texts[at:end]
        at = end
    return written


def whole_text(random, number):
    return "0" * random.choice([0, 0, 0, 0, 0, 1, 30]) + str(number)


class Numbers:
    """Numbers that are multiples of one power of ten, and span 29 digits at most."""

    def __init__(self, random):
        self.random = random
        self.digits = random.choice([1, 1, 2, 2, 3, 6, 8, 28, 29])
        ends = [-400, 401 - self.digits, random.randrange(-400, 402 - self.digits)]
        self.exponent = random.choice([0, 0, 0, -1, -1, -2, -3, 3, *ends])

    def wholes(self, count):
        """So many whole numbers, often all alike."""
        random = self.random
        one = [random.choice([0, digits_of(random, random.randrange(self.digits) + 1)]) for _ in range(count)]
        return one if random.random() < 0.7 else one[:1] * count

    def texts(self, wholes):
        random, texts = self.random, []
        for at, it in enumerate(wholes):
            if at and it == wholes[at - 1] and random.random() < 0.8:
                texts.append(texts[-1])
            elif random.random() < 0.3:
                texts.append(spelled(random, it, self.exponent))
            else:
                texts.append(f"{it}e{self.exponent}" if self.exponent and it else str(it))
        return starred(random, texts)

    def some(self, count):
        return self.texts(self.wholes(count))


def labels(random, count):
    """Labels of which none stands twice."""
    front = random.choice(["x", "X", "_", "a'b", 'c"d', "#,=\\", "~!", "long" * 63])
    front = front if front[0].isalpha() or front[0] == "_" else "v" + front
    return [quoted(random, f"{front}{it + 1}") for it in random.sample(range(count + 3), count)]


# Right studies


def environment(random):
    items = [Item("tabular_data")] if random.random() < 0.8 else []
    if items and random.random() < 0.7:
        items.append(Item("tabular_data_file", [quoted(random, random.choice(TABLE_NAMES))]))
    return Block("environment", items)


def method_items(random, name, n, numbers):
    """What a method needs, and what it may have."""
    if name == "vector_parameter_study":
        steps = random.choice([0, 1, 2, random.randrange(20), random.randrange(20), random.choice([0, 300, 10000])])
        way = random.choice(["step_vector", "step_vector", "step_vector", "final_point"])
        return [Item("num_steps", [whole_text(random, steps)]), Item(way, numbers.some(n))]
    if name == "list_parameter_study":
        return [Item("list_of_points", numbers.some(n * random.choice([1, 1, 2, 3, 9])))]
    if name == "centered_parameter_study":
        steps = [whole_text(random, random.randrange(4)) for _ in range(random.choice([1, n]))]
        return [Item("step_vector", numbers.some(n)), Item("steps_per_variable", starred(random, steps))]
    if name == "multidim_parameter_study":
        return [Item("partitions", starred(random, [whole_text(random, random.choice([1, 1, 2, 4])) for _ in range(n)]))]
    deltas = [abs(it) or 1 for it in numbers.wholes(2)]
    items = [Item("initial_delta", numbers.texts(deltas[:1])), Item("threshold_delta", numbers.texts(deltas[1:]))]
    if random.random() < 0.5:
        items.append(Item("max_iterations", [whole_text(random, random.choice([0, 1, 50, 10000]))]))
    if random.random() < 0.5:
        items.append(Item("max_function_evaluations", [whole_text(random, random.choice([1, 5, 50, 200, 30000]))]))
    return items


def method(random, name, n, numbers):
    items = [Item(name), *method_items(random, name, n, numbers)]
    if random.random() < 0.3:
        items.append(Item("output", [random.choice(sorted(MODES))]))
    return Block("method", items)


def variables(random, name, n, numbers):
    """The variables; with bounds, the initial point lies between them."""
    items = [Item("continuous_design", [whole_text(random, n)])]
    triples = [sorted(it) for it in zip(*(numbers.wholes(n) for _ in range(3)))]
    has_initial = random.random() < 0.7
    if not has_initial:
        triples = [(-abs(low), 0, abs(high)) for low, _, high in triples]
    for at, word in enumerate(["lower_bounds", "initial_point", "upper_bounds"]):
        is_there = has_initial if at == 1 else name == "multidim_parameter_study" or random.random() < 0.3
        if is_there:
            items.append(Item(word, numbers.texts([it[at] for it in triples])))
    if random.random() < 0.6:
        items.append(Item("descriptors", labels(random, n)))
    return Block("variables", items)


def interface(random, is_direct, m, numbers):
    driver = "rosenbrock" if is_direct else random.choice(DRIVERS)
    items = [Item("analysis_drivers", [quoted(random, driver)]), Item("direct" if is_direct else "fork")]
    for word in ("file_tag", "file_save", "aprepro"):
        if random.random() < 0.15:
            items.append(Item(word))
    names = dict(zip(FILES, random.sample(FILE_NAMES[:-2], 2)))
    items += [Item(it, [quoted(random, names[it])]) for it in FILES if random.random() < 0.15]
    if random.random() < 0.2:
        items.append(Item("asynchronous"))
        if random.random() < 0.5:
            items.append(Item("evaluation_concurrency", [whole_text(random, random.choice([1, 4, 64]))]))
    if random.random() < 0.3:
        rule = random.choice(["abort", *RULES])
        items += [Item("failure_capture"), Item(rule, rule_values(random, rule, m, numbers))]
    return Block("interface", items)


def rule_values(random, rule, m, numbers):
    if rule == "retry":
        return [random.choice(["1", "3", "1000"])]
    if rule == "recover":
        return random.choice([numbers.some(m), starred(random, ["1e9999"] * m), starred(random, ["-.5e-9998"] * m)])
    return []


def responses(random, kind, m):
    items = [Item(kind, [whole_text(random, m)])]
    if random.random() < 0.4:
        items.append(Item(random.choice(["descriptors", "response_descriptors"]), labels(random, m)))
    items += [Item(it) for it in ("no_gradients", "no_hessians") if random.random() < 0.6]
    return Block("responses", items)


def right_plan(random):
    """A study that is accepted."""
    name = random.choice([*METHODS, "vector_parameter_study", "vector_parameter_study"])
    is_direct = random.random() < 0.55
    n, m = (2, 1) if is_direct else (random.choice([1, 1, 2, 3, 5, random.choice([7, 100])]), random.choice([1, 1, 2, 5]))
    if name == "compass_search":
        m = 1
    n = min(n, 5) if name == "multidim_parameter_study" else n
    kind = "objective_functions" if name == "compass_search" else random.choice(["objective_functions", "response_functions"])
    numbers = Numbers(random)
    blocks = [
        method(random, name, n, numbers),
        variables(random, name, n, numbers),
        interface(random, is_direct, m, numbers),
        responses(random, kind, m),
    ]
    blocks += [environment(random)] if random.random() < 0.8 else []
    blocks += [Block("model", [Item("single")] * random.randrange(2))] if random.random() < 0.2 else []
    return shuffled(random, Plan(n, m, blocks))


def shuffled(random, plan):
    if random.random() < 0.6:
        random.shuffle(plan.blocks)
    for block in plan.blocks:
        if random.random() < 0.6:
            random.shuffle(block.items)
    return plan


def sized_plan(random):
    """A study whose size is at a limit, or one beyond it."""
    name = random.choice(METHODS[:4])
    more = random.choice([0, 1])
    bounds = []
    if name == "list_parameter_study":
        n, m, rows = random.choice([(1, 1, 100_000), (20, 20, 100_000), (39, 1, 100_000), (39, 2, 97_560), (100, 100, 20_000)])
        items = [Item("list_of_points", [f"{(rows + more) * n}*{random.choice(['0', '1', '.5'])}"])]
    elif name == "centered_parameter_study":
        n, m, steps = random.choice([(5, 1, 49_999), (6, 34, 49_999), (100, 100, 9_999), (39, 2, 48_779)])
        each = [10_000] * ((steps + more) // 10_000) + [(steps + more) % 10_000]
        items = [Item("step_vector", [f"{n}*1"]), Item("steps_per_variable", map(str, (each + [0] * n)[:n]))]
    elif name == "multidim_parameter_study":
        sizes = [(5, 1, [9] * 5), (2, 38, [399, 249]), (1, 1, [10_000]), (2, 2, [9999, 9]), (16, 1, [1] * 16), (3, 77, [49, 39, 24])]
        n, m, parts = random.choice(sizes)
        parts[-1] = min(parts[-1] + more, 10_000)
        items = [Item("partitions", starred(random, [str(it) for it in parts]))]
        bounds = [Item("lower_bounds", [f"{n}*-1"]), Item("upper_bounds", [f"{n}*1"])]
    else:
        n, m, most = random.choice([(39, 1, 100_000), (39 + more, 1, 100_000), (99, 1, 40_000 + more), (79, 1, 50_000 + more)])
        items = [Item("initial_delta", ["1"]), Item("threshold_delta", ["1"]), Item("max_function_evaluations", [str(most)])]
    blocks = [
        Block("method", [Item(name), *items]),
        Block("variables", [Item("continuous_design", [str(n)]), *bounds]),
        Block("interface", [Item("analysis_drivers", ["'run'"]), Item("fork")]),
        Block("responses", [Item("objective_functions", [str(m)])]),
    ]
    return shuffled(random, Plan(n, m, blocks))


# Changes of blocks, keywords and values


def keyword_of(block, item):
    return TABLE.get(block.word, {}).get(item.word)


def with_takes(plan, *kinds):
    """The items of a plan that take values of these kinds, with their blocks."""
    return [it for it in plan.places() if keyword_of(*it) and keyword_of(*it).takes in kinds]


def any_values(random, keyword, plan):
    """Values that a keyword may take, most often so many as it takes."""
    count = {"one": 1, "per variable": plan.n, "rows of variables": 2 * plan.n, "per response": plan.m}.get(keyword.count, 1)
    count = count if random.random() < 0.9 else random.randrange(5)
    if keyword.takes == "wholes":
        return [str(random.randint(keyword.low, min(keyword.high, 20))) for _ in range(count)]
    if keyword.takes == "numbers":
        return starred(random, [random.choice(["1", "0", "2.5", "-1e3"]) for _ in range(count)])
    if keyword.takes == "strings":
        return labels(random, count)
    return ["quiet"] if keyword.takes == "mode" else []


def drop_item(random, plan):
    block, item = random.choice(plan.places())
    block.items.remove(item)


def drop_block(random, plan):
    plan.blocks.remove(random.choice(plan.blocks))


def double_item(random, plan):
    block, item = random.choice(plan.places())
    block.items.insert(random.randrange(len(block.items) + 1), Item(item.word, item.values))


def double_block(random, plan):
    block = random.choice(plan.blocks)
    plan.blocks.insert(random.randrange(len(plan.blocks) + 1), Block(block.word, random.choice([[], block.items])))


def move_item(random, plan):
    block, item = random.choice(plan.places())
    block.items.remove(item)
    other = random.choice(plan.blocks)
    other.items.insert(random.randrange(len(other.items) + 1), item)


def front_item(random, plan):
    _, item = random.choice(plan.places())
    keyword = random.choice(sorted(KEYWORDS))
    plan.front = random.choice([[item.word, *item.values], [item.word], item.values, ["5"], ["'x'"], [keyword]])


def add_keyword(random, plan):
    word = random.choice(sorted(TABLE))
    name = random.choice(sorted(TABLE[word]))
    plan.add(random, word, Item(name, any_values(random, TABLE[word][name], plan)))


def wrong_word(random, plan):
    """A word that is no keyword, or none of this profile, somewhere among the tokens."""
    _, item = random.choice(plan.places())
    typo = random.choice([item.word[:-1], item.word + "s", item.word.replace("_", "-"), "*3", "x", "silent", "(", "a" * 300])
    word = random.choice([typo, random.choice(sorted(REFUSED)), random.choice(sorted(REFUSED))])
    if random.random() < 0.5:
        item.word = word
    else:
        item.values.insert(random.randrange(len(item.values) + 1), word)


def stray_value(random, plan):
    """A value where none may stand, or one of another kind."""
    value = random.choice(["5", "-", ".", "3*4", "'x'", '""'])
    block, item = random.choice(plan.places())
    if random.random() < 0.2:
        item.word = value
    elif random.random() < 0.7 or not item.values:
        item.values.insert(random.randrange(len(item.values) + 1), value)
    else:
        item.values[random.randrange(len(item.values))] = value


def wrong_output(random, plan):
    """`output` with another word or value, or none."""
    values = random.choice([["loud"], ["5"], ["'quiet'"], [], [], ["quiet", "debug"], ["system"], ["num_steps"], ["QUIET", "1"]])
    plan.put(random, "method", Item("output", values))
    if random.random() < 0.4 and plan.block("method"):
        block = plan.block("method")
        block.items.sort(key=lambda it: it.word == "output")
        plan.blocks.sort(key=lambda it: it is block and random.random() < 0.7)


def another_count(random, plan):
    """One value more or less, or none."""
    places = [it for _, it in plan.places() if it.values]
    item = random.choice(places)
    change = random.randrange(4)
    if change == 0:
        item.values.append(random.choice(item.values))
    elif change == 1:
        item.values.pop()
    elif change == 2:
        item.values = []
    else:
        at = random.randrange(len(item.values))
        item.values[at] = f"{random.choice([2, 3, 100])}*{item.values[at]}"


def wrong_whole(random, plan):
    found = with_takes(plan, "wholes")
    if found:
        block, item = random.choice(found)
        keyword = keyword_of(block, item)
        limits = [keyword.low, keyword.high, keyword.low - 1, keyword.high + 1, keyword.high + 1, 4_000_000, 4_000_001]
        text = random.choice([str(random.choice(limits)), str(random.choice(limits)), random.choice(WRONG_COUNTS)])
        replace(random, item, text)


def replace(random, item, text):
    """Puts a text in the place of one of an item's values."""
    if item.values:
        item.values[random.randrange(len(item.values))] = text


def wrong_number(random, plan):
    found = with_takes(plan, "numbers")
    if found:
        text = random.choice([limit_text(random), random.choice(WRONG_NUMBERS), random.choice(["0", "-1", "1e401", "-1e-401", "1x"])])
        replace(random, random.choice(found)[1], text)


def wrong_copies(random, plan):
    """`N*value` with an N at a limit or none, or a value that is none."""
    found = with_takes(plan, "numbers", "wholes")
    if found:
        times = random.choice(["0", "00", "1", "01", "4000000", "4000001", "9" * 20, "", "+1", "1.0", "-1", "1e0", "2*1", "0" * 5000 + "1"])
        value = random.choice(["1", "1", "1", "0", "", "x", "1x", "1*1", "-1.5"])
        replace(random, random.choice(found)[1], f"{times}*{value}")


def many_values(random, plan):
    """About 4,000,000 values or more."""
    found = with_takes(plan, "numbers", "wholes")
    if found:
        item = random.choice(found)[1]
        values = [["3999999*1", "1"], ["3999999*1", "1", "1"], ["4000000*1", "1"], ["2000000*1", "2000001*0", "1"], ["4000000*1"] * 3]
        item.values = random.choice([*values, ["4000000*1", "1x"], ["4000000*1", "2", "0*1"]])


def mixed_values(random, plan):
    """Several values of one keyword, wrong in several ways."""
    found = with_takes(plan, "numbers", "wholes")
    if found:
        values = ["1", "0", "-1", "1x", "0*1", "4000001*1", "4000000*1", "1e401", "2*", "2*1x", "+1"]
        random.choice(found)[1].values = random.choices(values, k=random.choice([2, 2, 3, 4]))


def wrong_labels(random, plan):
    places = [("variables", "descriptors", plan.n), ("responses", "descriptors", plan.m), ("responses", "response_descriptors", plan.m)]
    for block, word, count in random.sample(places, random.choice([1, 1, 2])):
        values = labels(random, count)
        at = random.randrange(count)
        wrong = ["", "1x", "a b", " a", "-x", "b" * 255, "b" * 256, "_", "$", "é", "a\tb", "x'", "descriptors"]
        values[at] = random.choice([quoted(random, random.choice(wrong)), random.choice(values), values[0]])
        plan.put(random, block, Item(word, values))


def wrong_names(random, plan):
    """Names of files that are empty, or alike."""
    block, word = random.choice([("environment", "tabular_data_file"), *(("interface", it) for it in FILES)])
    names = ["", "", "params.in", "results.out", "p.in", "x"]
    plan.put(random, block, Item(word, [quoted(random, random.choice(names))]))
    if random.random() < 0.4:
        name = quoted(random, random.choice(["same", "", "params.in"]))
        for it in FILES:
            plan.put(random, "interface", Item(it, [name]))


def wrong_driver(random, plan):
    drivers = [[], ["'a'", "'b'"], ["''"], ["' '"], ["'   '"], ["' rosenbrock'"], ["'Rosenbrock'"], ["'text_book'"], ["'rosenbrock'"]]
    change = random.randrange(5)
    if change <= 1:
        plan.put(random, "interface", Item("analysis_drivers", random.choice(drivers)))
    elif change == 2:
        plan.drop(random.choice(["analysis_drivers", "fork", "direct"]))
    elif change == 3:
        plan.put(random, "interface", Item(random.choice(["fork", "direct"])))
    else:
        word, kind = random.choice([("variables", "continuous_design"), ("responses", "objective_functions")])
        plan.put(random, word, Item(kind, [random.choice(["1", "2", "3", "100", "101", "0", "2*1", "1*2"])]))


def wrong_kind(random, plan):
    """Other counts of responses: none, two kinds, or another number."""
    kind = random.choice(["objective_functions", "response_functions"])
    change = random.randrange(3)
    if change == 0:
        plan.drop(kind)
    elif change == 1:
        plan.put(random, "responses", Item(kind, [str(plan.m)]))
    else:
        plan.drop("objective_functions")
        plan.drop("response_functions")
        plan.drop("descriptors", "responses")
        plan.drop("response_descriptors")
        plan.put(random, "responses", Item(kind, [str(plan.m)]))


def wrong_method(random, plan):
    """A keyword of another method, none of its own, or another method."""
    change = random.randrange(5)
    words = [it for it in TABLE["method"] if it not in METHODS]
    if change == 0:
        word = random.choice(words)
        plan.put(random, "method", Item(word, any_values(random, TABLE["method"][word], plan)))
    elif change == 1:
        plan.drop(random.choice([it.word for block, it in plan.places() if block.word == "method" and it.word in words] or ["output"]))
    elif change == 2:
        plan.put(random, "method", Item(random.choice(METHODS)))
    elif change == 3:
        for item in plan.block("method").items if plan.block("method") else []:
            item.word = random.choice(METHODS) if item.word in METHODS else item.word
    else:
        plan.drop(random.choice(["lower_bounds", "upper_bounds", "initial_point"]))


def wrong_needs(random, plan):
    """What one method alone asks for: one way to step, both bounds, one objective function."""
    if plan.item("vector_parameter_study"):
        for word in ("step_vector", "final_point"):
            plan.put(random, "method", Item(word, any_values(random, TABLE["method"][word], plan)))
    elif plan.item("multidim_parameter_study"):
        plan.drop(random.choice(["lower_bounds", "upper_bounds"]))
    elif plan.item("compass_search"):
        plan.m = random.choice([1, 2, 3])
        wrong_kind(random, plan)
    else:
        wrong_method(random, plan)


def wrong_rules(random, plan):
    """What happens at failures, and how many evaluations there are at once, with too much or too little."""
    numbers = Numbers(random)
    for rule in random.sample(RULES, random.choice([0, 1, 1, 2])):
        plan.put(random, "interface", Item(rule, rule_values(random, rule, plan.m, numbers)))
    if random.random() < 0.5:
        plan.drop("failure_capture")
    else:
        plan.put(random, "interface", Item("failure_capture"))
    if random.random() < 0.4:
        plan.put(random, "interface", Item("evaluation_concurrency", [random.choice(["1", "64", "65", "0"])]))
        if random.random() < 0.6:
            plan.drop("asynchronous")


def wrong_bounds(random, plan):
    """Bounds that cross, or an initial value, written or by default, about or outside them."""
    numbers = ["-1", "0", "1", "1.0", "1e0", "2", "0.5", "1e-9", "-1e-9"]
    words = ["lower_bounds", "initial_point", "upper_bounds"]
    for word in random.sample(words, random.choice([1, 2, 2, 3])):
        plan.put(random, "variables", Item(word, starred(random, [random.choice(numbers) for _ in range(plan.n)])))
    if random.random() < 0.4:
        plan.drop("initial_point")
    if random.random() < 0.3:
        lower, upper = plan.item("lower_bounds"), plan.item("upper_bounds")
        if lower and upper:
            lower.values, upper.values = upper.values, lower.values


def off_grid(random, plan):
    """A number 27 to 29 digits below another one."""
    found = with_takes(plan, "numbers")
    values = [it for block, item in found if block.word != "interface" for it in [item] if it.values]
    if values:
        top = random.choice([0, 0, 5, -300, 400, -372, -371])
        for item in random.choices(values, k=2):
            replace(random, item, f"{random.choice(['1', '3', '-7', '1.0'])}e{top - random.choice([0, 0, 27, 28, 28, 29, 29])}")


def wrong_table(random, plan):
    if not plan.block("environment"):
        plan.blocks.append(Block("environment"))
    plan.drop("tabular_data")
    plan.put(random, "environment", Item("tabular_data_file", [quoted(random, random.choice(TABLE_NAMES))]))


CHANGES = [
    drop_item,
    drop_block,
    double_item,
    double_block,
    move_item,
    front_item,
    add_keyword,
    wrong_word,
    stray_value,
    wrong_output,
    another_count,
    wrong_whole,
    wrong_number,
    wrong_copies,
    many_values,
    mixed_values,
    wrong_labels,
    wrong_labels,
    wrong_names,
    wrong_driver,
    wrong_driver,
    wrong_kind,
    wrong_method,
    wrong_needs,
    wrong_needs,
    wrong_rules,
    wrong_rules,
    wrong_bounds,
    wrong_bounds,
    off_grid,
    off_grid,
    wrong_table,
]


# Texts

GAPS = [" ", "\n", "\t", "\r\n", "  ", ", ", "\n\n    ", "\r"]
ODD_GAPS = [",", "=", " = ", ",,=", " \\\n", "\\ \t\\\r\n", " # it's a \"comment\" \\ method, 5\n", "#\n", "# \0\xff\r\n", "\n\\\n \\\\\n"]
ODD_BYTES = [b"\0", b"\x0b", b"\x0c", b"\x1f", b"\x7f", b"\x80", b"\xff", b"\\", b"'", b'"', b"#", b"\n", b"\r", b"\t", b"*", b"[", b"~"]


def cased(random, token):
    if token[:1] in ("'", '"') or random.random() < 0.9:
        return token
    return random.choice([token.upper(), token.capitalize(), token.swapcase(), "".join(random.choice([it, it.upper()]) for it in token)])


def written(random, tokens):
    """The tokens between white space, separators and comments."""
    odd = random.choice([0, 0, 0.05, 0.3])
    text = random.choice(["", "", "\n", " ", "# study\n", "\\\n", ",="])
    for at, token in enumerate(tokens):
        text += cased(random, token)
        touches = token[-1:] in ("'", '"') or (tokens[at + 1 :] and tokens[at + 1][:1] in ("'", '"'))
        if touches and random.random() < odd:
            continue
        text += random.choice(ODD_GAPS if random.random() < odd else GAPS)
    return text + random.choice(["", "", "", "\n", "# end", "\\", "\\ ", ",", "#"])


def changed_text(random, text):
    """A text that differs in a byte, or ends early or late."""
    at = random.randrange(len(text) + 1)
    way = random.randrange(8)
    if way <= 1:
        return text[:at] + random.choice(ODD_BYTES) + text[at:]
    if way == 2:
        return text[:at] + random.choice(ODD_BYTES) + text[at + 1 :]
    if way == 3:
        return text[:at] + text[at + 1 :]
    if way == 4:
        return random.choice([text[:at], text[at:], text + text])
    quotes = [it for it, byte in enumerate(text) if byte in b"'\""]
    if not quotes:
        return text
    at = random.choice(quotes)
    if way <= 6:
        return text[:at] + text[at + 1 :]
    return text[:at] + text[at : at + 1] + random.choice(ODD_BYTES) + text[at + 1 :]


def whole_study_text(random):
    """The bytes of a study's file."""
    chance = random.random()
    plan = sized_plan(random) if chance < 0.08 else right_plan(random)
    changes = 0 if chance < 0.22 else 1 if chance < 0.78 else 2
    for _ in range(changes):
        if plan.places():
            random.choice(CHANGES)(random, plan)
    text = written(random, [it for it in plan.tokens() if it]).encode()
    return changed_text(random, text) if random.random() < 0.14 else text
