"""Simulations that are run over parameters files, and what is wrong with what they leave."""
import collections
import os
import subprocess
from fractions import Fraction

from decimals import decimal_of, rosenbrock
from parameters import TAGS, pairs_of, parameters_text, sci_text
from results import read_results
from simulation_points import drawn_among_others, drawn_plain, drawn_point

NAMES = [("params.in", "results.out"), ("params.in.12", "results.out.12"), ("a b=c'.in", "-r $x.out")]
PARAMETERS, RESULTS = NAMES[0]
COUNT = f"{RESULTS}.count"
FAIL = b"FAIL\n"
# What is no parameters file of the standard form with x1, x2 and a response.
SPOILED = [
    b"",
    b"\n",
    b"2 variables\n",
    b"{ x1 = 1 }\n{ x2 = 1 }\n{ ASV_1:f = 1 }\n",
    b" 1.0e+00 x1\n 1 ASV_1:f\n",
    b" 1.0e+00 x1\n 1.0e+00 x2\n",
    b" a x1\n b x2\n 1 ASV_1:f\n",
]

# A simulation: its name, the words that start it, or none and why it is left out, the form of its parameters files, how
# one is drawn, what is wrong with the results file of one, and what else is wrong.
Driver = collections.namedtuple("Driver", "name command why form draw fault more")
Left = collections.namedtuple("Left", "status printed files")


def run(command, text, names, folder, before=()):
    """Runs a simulation over a parameters file in a folder with some files and nothing else. The parameters file is left
    out of those that it leaves, where it is as it was."""
    for name in os.listdir(folder):
        os.remove(os.path.join(folder, name))
    for name, content in (*dict(before).items(), (names[0], text)):
        with open(os.path.join(folder, name), "wb") as it:
            it.write(content)
    done = subprocess.run([*command, *names], cwd=folder, stdin=subprocess.DEVNULL, capture_output=True)
    files = {}
    for name in os.listdir(folder):
        with open(os.path.join(folder, name), "rb") as it:
            files[name] = it.read()
    if files.get(names[0]) == text:
        del files[names[0]]
    return Left(done.returncode, done.stdout, files)


def point_of(parameters):
    """The values of x1 and x2."""
    return [parameters.point[parameters.labels.index(it)] for it in ("x1", "x2")]


def fraction_of(decimal):
    return decimal[0] * Fraction(10) ** decimal[1]


def exact_value(x1, x2):
    """The value of Rosenbrock's function as a decimal, or none where it has more than 34 digits."""
    exponent = 4 * min(x1[1], x2[1], 0)
    x1, x2 = fraction_of(x1), fraction_of(x2)
    mantissa = int((100 * (x2 - x1**2) ** 2 + (1 - x1) ** 2) / Fraction(10) ** exponent)
    while mantissa and mantissa % 10 == 0:
        mantissa, exponent = mantissa // 10, exponent + 1
    return decimal_of(mantissa, exponent)


def is_labelled(content, parameters):
    return content.endswith(f" {parameters.responses[0]}\n".encode())


def exact_fault(parameters, content):
    """Of a driver that computes with all digits."""
    value = exact_value(*point_of(parameters))
    if value is None:
        return None if content == FAIL else f"{content!r}, and no failure"
    is_right = read_results(content, 1) == [value] and is_labelled(content, parameters)
    return None if is_right else f"{content!r}, and not {value}"


def floating_fault(parameters, content):
    """Of a driver that computes in double precision. Each of its steps rounds by a part in 2**53 of what the terms come to
    without their signs; terms below the least number that has all its digits may be lost."""
    x1, x2 = map(fraction_of, point_of(parameters))
    value, most = 100 * (x2 - x1**2) ** 2 + (1 - x1) ** 2, 100 * (abs(x2) + x1**2) ** 2 + (1 + abs(x1)) ** 2
    found = read_results(content, 1)
    if found is None:
        return None if content == FAIL and most > 2**1000 else f"{content!r}, and not {value}"
    is_near = abs(fraction_of(found[0]) - value) <= most / 2**49 + Fraction(1, 2**500)
    return None if is_near and is_labelled(content, parameters) else f"{content!r}, and not {value}"


def simdriver_text(parameters):
    """What `dk_simdriver` leaves, by its rules."""
    value = rosenbrock(*parameters.point)
    return FAIL if value is None else f"{sci_text(value)} {parameters.responses[0]}\n".encode()


def simdriver_fault(parameters, content):
    wanted = simdriver_text(parameters)
    return None if content == wanted else f"{content!r}, and not {wanted!r}"


def aprepro_fault(parameters, content):
    """Of `aprepro`, which writes the value of each line with some ten digits."""
    values = [float(value) for value, _ in pairs_of(parameters, TAGS["aprepro"])]
    found = [float(it) for it in content.split()]
    is_near = len(found) == len(values) and all(abs(one - other) <= 1e-9 * abs(other) for one, other in zip(found, values))
    return None if is_near else f"{content!r}, and not {values}"


def nothing_else(driver, random, folder):
    return iter(())


def spoiled_files(driver, random, folder):
    """Of files that are none of the standard form: an example leaves FAIL."""
    for text in SPOILED:
        left = run(driver.command, text, NAMES[0], folder)
        if left != Left(0, b"", {RESULTS: FAIL}):
            yield f"{driver.name} over {text!r}: {left}"


def calls_of_modes(random, parameters):
    """Words of `dk_simdriver` behind its name, the files before, and what it is to leave then."""
    wanted, evaluation, count = simdriver_text(parameters), parameters.evaluation, random.randrange(4)
    yield ["fail", str(evaluation)], {}, {RESULTS: FAIL}
    yield ["fail", str(evaluation + 1)], {}, {RESULTS: wanted}
    yield ["fail", "4294967295"], {RESULTS: b"older"}, {RESULTS: wanted}
    for calls in range(count + 2):
        before = {COUNT: b"%d\n" % calls} if calls else {}
        yield ["flaky", str(count)], before, {COUNT: b"%d\n" % (calls + 1), RESULTS: FAIL if calls < count else wanted}
    for words in ([], ["fails", "1"], ["rosenbrock", "1"], ["fail"], ["fail", "-1"], ["fail", ""], ["flaky", "4294967296"]):
        yield words, {}, None


def modes(driver, random, folder):
    """Of the other modes of `dk_simdriver`, of its printing, and of words and files that are others."""
    program = driver.command[:-1]
    for parameters in [driver.draw(random) for _ in range(20)]:
        text = parameters_text(parameters, driver.form)
        for words, before, files in calls_of_modes(random, parameters):
            left = run([*program, *words], text, NAMES[0], folder, before)
            if left != Left(int(files is None), b"", files or {}):
                yield f"{driver.name} {words} at {parameters}: {left}"
        left = run(driver.command, text, (PARAMETERS, "-"), folder)
        if left != Left(0, simdriver_text(parameters), {}):
            yield f"{driver.name} at {parameters}, printing: {left}"
    for text in SPOILED:
        left = run(driver.command, text, NAMES[0], folder)
        if left != Left(1, b"", {}):
            yield f"{driver.name} over {text!r}: {left}"


def all_drivers(root, simdriver, aprepro):
    """The examples, and the programs that there are."""
    exact, floating = (os.path.join(root, "examples", "drivers", it) for it in ("rosenbrock.py", "rosenbrock.sh"))
    words = [simdriver, "rosenbrock"] if simdriver else None
    return [
        Driver("rosenbrock.py", [exact], None, "standard", drawn_among_others, exact_fault, spoiled_files),
        Driver("rosenbrock.sh", [floating], None, "standard", drawn_among_others, floating_fault, spoiled_files),
        Driver("dk_simdriver", words, "no program is given", "standard", drawn_point, simdriver_fault, modes),
        Driver("aprepro", aprepro and [aprepro], "it isn't installed", "aprepro", drawn_plain, aprepro_fault, nothing_else),
    ]


def driven(driver, random, count, folder):
    """What came of so many parameters files, and what is wrong with it."""
    failures, faults = 0, []
    for place in range(count):
        parameters = driver.draw(random)
        # APREPRO would take a name that begins with - for an option.
        names = NAMES[place % len(NAMES)] if driver.form == "standard" else NAMES[0]
        left = run(driver.command, parameters_text(parameters, driver.form), names, folder)
        content = left.files.get(names[1])
        failures += content == FAIL
        fault = driver.fault(parameters, content) if left == Left(0, b"", {names[1]: content}) else str(left)
        if fault:
            faults.append(f"{driver.name} at {parameters}: {fault}")
    faults += driver.more(driver, random, folder)
    return f"{count} files, {failures} without a value", faults
