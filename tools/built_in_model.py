"""The built-in functions of a script, said a second time: values, conversions and one function a built-in.

Written from ECMA-262, edition 5.1, whose section stands at each rule, and from what docs/SCRIPTS.md narrows there:
numbers are whole or NaN, objects are not converted, and what is outside raises a Fault. `built_in_table.py` uses it.

| value | here |
|---|---|
| undefined, NaN | UNDEFINED, NAN |
| null, a boolean, a number, a text | None, a bool, an int, a str of 16-bit units |
| an array, a plain object, an error | Array, Plain, Failure |
| a function of the script, a built-in function or object | Script, BuiltIn |
"""
import re
import string

GREATEST = 9007199254740991
WHITE_AND_LINE_ENDS = (
    "\t\v\f \u00a0\u1680\u2000\u2001\u2002\u2003\u2004\u2005\u2006\u2007\u2008\u2009\u200a\u202f\u205f\u3000\ufeff"
    "\n\r\u2028\u2029")

# What every plain object has in the standard, and not here.
NOT_HERE = ("constructor", "toString", "toLocaleString", "valueOf", "isPrototypeOf", "propertyIsEnumerable")


class Fault(Exception):
    """The end of a run outside the profile, by its name."""


class Thrown(Exception):
    """What is thrown, by its class."""


class Only:
    """A value that is the only one of its kind."""

    def __init__(self, name):
        self.name = name


UNDEFINED = Only("undefined")
NAN = Only("NaN")


class Object:
    """What is compared by identity."""


class Array(Object):
    def __init__(self, *elements):
        self.elements = list(elements)


class Plain(Object):
    """A plain object; `of_function` tells whether a function was made with it as its `prototype`."""

    def __init__(self, properties, prototype=None, of_function=False):
        self.properties = properties
        self.prototype = prototype
        self.of_function = of_function


class Failure(Object):
    """An error."""

    def __init__(self, name, properties):
        self.name = name
        self.properties = properties


class Script(Object):
    """A function of the script; `body` takes `this` and the arguments."""

    def __init__(self, body=lambda this, arguments: UNDEFINED):
        self.body = body
        self.properties = {}


class BuiltIn(Object):
    """A built-in function, or the object `Math`, which has no `body`. `made` is what `new` does with the arguments."""

    def __init__(self, name, body=None, made=None):
        self.name = name
        self.body = body
        self.made = made


# Conversions


def within(number):
    """A whole number, where it is in the range."""
    if abs(number) > GREATEST:
        raise Fault("OutOfRange")
    return number


def to_number(value):
    """9.3"""
    if isinstance(value, Object):
        raise Fault("ObjectToPrimitive")
    if isinstance(value, str):
        return number_of(value)
    if value is UNDEFINED or value is NAN:
        return NAN
    return 0 if value is None else int(value)


def number_of(text):
    """9.3.1"""
    text = text.strip(WHITE_AND_LINE_ENDS)
    if text == "":
        return 0
    if re.fullmatch(r"0[xX][0-9a-fA-F]+", text):
        return within(int(text[2:], 16))
    if re.fullmatch(r"[+-]?[0-9]+", text):
        return within(int(text))
    if re.fullmatch(r"[+-]?([0-9]+\.?[0-9]*|\.[0-9]+)([eE][+-]?[0-9]+)?", text):
        raise Fault("NotWhole")
    if re.fullmatch(r"[+-]?Infinity", text):
        raise Fault("Infinite")
    return NAN


def to_integer(value):
    """9.4"""
    number = to_number(value)
    return 0 if number is NAN else number


def to_int32(value):
    """9.5"""
    number = to_integer(value) % 2**32
    return number - 2**32 if number >= 2**31 else number


def to_text(value):
    """9.8"""
    if isinstance(value, Object):
        raise Fault("ObjectToPrimitive")
    if isinstance(value, Only):
        return value.name
    if value is None:
        return "null"
    return str(value).lower() if isinstance(value, bool) else str(value)


def strictly_equal(x, y):
    """11.9.6"""
    if type(x) is not type(y) or x is NAN:
        return False
    return x is y if isinstance(x, Object) else x == y


def is_index(name):
    """Whether a name is a whole number from 0 to 4294967294 in decimal."""
    return re.fullmatch(r"0|[1-9][0-9]{0,9}", name) is not None and int(name) < 2**32 - 1


def argument(arguments, place):
    return arguments[place] if place < len(arguments) else UNDEFINED


def received(this, kind):
    """`this`, where it is of the kind that has the call."""
    if this is UNDEFINED or this is None:
        raise Thrown("TypeError")
    if not isinstance(this, kind):
        raise Fault("NotInProfile")
    return this


# Functions of numbers and texts


def parse_int(this, arguments):
    """15.1.2.2"""
    text = to_text(argument(arguments, 0)).lstrip(WHITE_AND_LINE_ENDS)
    radix = to_int32(argument(arguments, 1))
    sign = -1 if text.startswith("-") else 1
    if text.startswith(("+", "-")):
        text = text[1:]
    if radix in (0, 16) and text.startswith(("0x", "0X")):
        radix, text = 16, text[2:]
    radix = radix or 10
    if radix < 2 or radix > 36:
        return NAN
    digits = ""
    while len(digits) < len(text) and is_digit(text[len(digits)], radix):
        digits += text[len(digits)]
    return within(sign * int(digits, radix)) if digits else NAN


def is_digit(unit, radix):
    return unit in string.digits + string.ascii_letters and int(unit, 36) < radix


def is_nan(this, arguments):
    """15.1.2.4"""
    return to_number(argument(arguments, 0)) is NAN


def text_called(this, arguments):
    """15.5.1.1"""
    return to_text(arguments[0]) if arguments else ""


def number_called(this, arguments):
    """15.7.1.1"""
    return to_number(arguments[0]) if arguments else 0


def not_made(arguments):
    """Objects of texts and of numbers are not here."""
    raise Fault("NotInProfile")


def error_made(name):
    """15.11.2.1, 15.11.7.4: an error of this name, made by `new`."""
    def made(arguments):
        message = argument(arguments, 0)
        return Failure(name, {} if message is UNDEFINED else {"message": to_text(message)})
    return made


def error_called(name):
    """15.11.1.1, 15.11.7.2: called as a function it is as with `new`."""
    return lambda this, arguments: error_made(name)(arguments)


def math_abs(this, arguments):
    """15.8.2.1"""
    number = to_number(argument(arguments, 0))
    return NAN if number is NAN else abs(number)


def math_floor(this, arguments):
    """15.8.2.9: a whole number is its own floor."""
    return to_number(argument(arguments, 0))


def math_max(this, arguments):
    """15.8.2.11"""
    return chosen(max, arguments)


def math_min(this, arguments):
    """15.8.2.12"""
    return chosen(min, arguments)


def chosen(choice, arguments):
    numbers = [to_number(value) for value in arguments]
    if not numbers:
        raise Fault("Infinite")
    return NAN if NAN in numbers else choice(numbers)


# Calls of arrays


def array_join(this, arguments):
    """15.4.4.5"""
    elements = received(this, Array).elements
    separator = argument(arguments, 0)
    separator = "," if separator is UNDEFINED else to_text(separator)
    return separator.join(["" if value is UNDEFINED or value is None else to_text(value) for value in elements])


def array_pop(this, arguments):
    """15.4.4.6"""
    elements = received(this, Array).elements
    return elements.pop() if elements else UNDEFINED


def array_push(this, arguments):
    """15.4.4.7"""
    elements = received(this, Array).elements
    elements.extend(arguments)
    return len(elements)


def array_slice(this, arguments):
    """15.4.4.10"""
    elements = received(this, Array).elements
    length = len(elements)
    start = from_end(to_integer(argument(arguments, 0)), length)
    end = argument(arguments, 1)
    end = length if end is UNDEFINED else from_end(to_integer(end), length)
    return Array(*elements[start:end])


def from_end(place, length):
    """A place within a length, where a negative one counts from the end."""
    return max(length + place, 0) if place < 0 else min(place, length)


def array_index_of(this, arguments):
    """15.4.4.14"""
    elements = received(this, Array).elements
    length = len(elements)
    if length == 0:
        return -1
    start = to_integer(argument(arguments, 1))
    start = max(length + start, 0) if start < 0 else start
    places = [k for k in range(start, length) if strictly_equal(elements[k], argument(arguments, 0))]
    return places[0] if places else -1


# Calls of texts


def char_at(this, arguments):
    """15.5.4.4"""
    text = received(this, str)
    place = to_integer(argument(arguments, 0))
    return text[place] if 0 <= place < len(text) else ""


def char_code_at(this, arguments):
    """15.5.4.5"""
    text = received(this, str)
    place = to_integer(argument(arguments, 0))
    return ord(text[place]) if 0 <= place < len(text) else NAN


def text_index_of(this, arguments):
    """15.5.4.7"""
    text = received(this, str)
    sought = to_text(argument(arguments, 0))
    start = to_integer(argument(arguments, 1))
    return text.find(sought, min(max(start, 0), len(text)))


def substring(this, arguments):
    """15.5.4.15"""
    text = received(this, str)
    start = to_integer(argument(arguments, 0))
    end = argument(arguments, 1)
    end = len(text) if end is UNDEFINED else to_integer(end)
    start, end = (min(max(place, 0), len(text)) for place in (start, end))
    return text[min(start, end):max(start, end)]


# Calls of objects and functions


def has_own_property(this, arguments):
    """15.2.4.5: the name is converted before the receiver is looked at."""
    name = to_text(argument(arguments, 0))
    if name.startswith("__"):
        raise Fault("NotInProfile")
    if isinstance(this, Array):
        return name == "length" or is_index(name) and int(name) < len(this.elements)
    if not isinstance(this, Plain) or this.of_function and name == "constructor":
        raise Fault("NotInProfile")
    return name in this.properties


def function_call(this, arguments):
    """15.3.4.4"""
    return received(this, Script).body(argument(arguments, 0), arguments[1:])


def error(name):
    return BuiltIn(name, error_called(name), error_made(name))


GLOBALS = {
    "parseInt": BuiltIn("parseInt", parse_int),
    "isNaN": BuiltIn("isNaN", is_nan),
    "String": BuiltIn("String", text_called, not_made),
    "Number": BuiltIn("Number", number_called, not_made),
    "Error": error("Error"),
    "TypeError": error("TypeError"),
    "RangeError": error("RangeError"),
    "Math": BuiltIn("Math"),
}
OF_MATH = {
    "abs": BuiltIn("abs", math_abs),
    "floor": BuiltIn("floor", math_floor),
    "max": BuiltIn("max", math_max),
    "min": BuiltIn("min", math_min),
}
HAS_OWN_PROPERTY = BuiltIn("hasOwnProperty", has_own_property)
OF_ARRAYS = {
    "join": BuiltIn("join", array_join),
    "pop": BuiltIn("pop", array_pop),
    "push": BuiltIn("push", array_push),
    "slice": BuiltIn("slice", array_slice),
    "indexOf": BuiltIn("indexOf", array_index_of),
    "hasOwnProperty": HAS_OWN_PROPERTY,
}
OF_TEXTS = {
    "charAt": BuiltIn("charAt", char_at),
    "charCodeAt": BuiltIn("charCodeAt", char_code_at),
    "indexOf": BuiltIn("indexOf", text_index_of),
    "substring": BuiltIn("substring", substring),
}
OF_FUNCTIONS = {"call": BuiltIn("call", function_call)}


# Expressions


def member(base, name):
    """What `base.name` reads, of the names of functions."""
    if base is UNDEFINED or base is None:
        raise Thrown("TypeError")
    if isinstance(base, (Plain, Failure)):
        return inherited(base, name)
    if isinstance(base, Script) and name in base.properties:
        return base.properties[name]
    found = calls_of(base).get(name)
    if found is None:
        raise Fault("NotInProfile")
    return found


def inherited(base, name):
    """What an object, or one of its prototypes, has; else `hasOwnProperty`, or undefined."""
    while base is not None:
        if name in base.properties:
            return base.properties[name]
        base = getattr(base, "prototype", None)
    if name in NOT_HERE:
        raise Fault("NotInProfile")
    return HAS_OWN_PROPERTY if name == "hasOwnProperty" else UNDEFINED


def calls_of(base):
    if isinstance(base, Array):
        return OF_ARRAYS
    if isinstance(base, str):
        return OF_TEXTS
    if isinstance(base, Script):
        return OF_FUNCTIONS
    return OF_MATH if base is GLOBALS["Math"] else {}


def called(function, this, arguments):
    """11.2.3"""
    if getattr(function, "body", None) is None:
        raise Thrown("TypeError")
    return function.body(this, arguments)


def constructed(function, arguments):
    """11.2.2, of built-ins"""
    if function.made is None:
        raise Thrown("TypeError")
    return function.made(arguments)


# Values as text


def shown(value):
    """A value as the program `script` prints it."""
    if isinstance(value, str):
        return '"' + re.sub(r'[^ !#-\[\]-~]', lambda unit: f"\\u{ord(unit.group()):04x}", value) + '"'
    if isinstance(value, Array):
        return "[" + ",".join(shown(element) for element in value.elements) + "]"
    if isinstance(value, (Plain, Failure)):
        name = value.name if isinstance(value, Failure) else ""
        return name + "{" + ",".join(f"{key}:{shown(part)}" for key, part in value.properties.items()) + "}"
    if isinstance(value, Script):
        return "function"
    return f"builtin {value.name}" if isinstance(value, BuiltIn) else to_text(value)


def outcome(expression):
    """The outcome of a function without arguments: its value, `fault NAME` or `throws a CLASS`."""
    try:
        return f"`{shown(expression())}`"
    except Fault as fault:
        return f"fault {fault}"
    except Thrown as thrown:
        return f"throws a {thrown}"
