"""Interface files in which types have names (docs/FORMATS.md, "Names of types"), and the plain form
of one, in which nothing has a name.

What is wrong with such a file is told as BadShape, whichever rule it breaks.
"""

ROOM = 1_000_000
LEVELS = 256
DEEPEST = 127
BESIDE_FILE = ('id', 'comment', 'types')
BESIDE_OPERATION = ('raises', 'comment')
OTHER_FORM = 'what stands beside the plain form is of another form'


class NotPlain(Exception):
    """A file has no plain form: the rule that it breaks."""


def demand(holds, rule):
    if not holds:
        raise NotPlain(rule)


def plain(json):
    """The plain form of a file; what is no object has itself for one."""
    if not isinstance(json, dict):
        return json
    judge_beside(json)
    made = Plain(json.get('types', {})).file(json)
    demand(depth_of(made) <= DEEPEST, 'the plain form nests too deep')
    return made


# What stands beside the plain form

def judge_beside(json):
    """The id, the comments, the types and what operations raise have their forms."""
    may_have(json, 'id', str)
    may_have(json, 'comment', str)
    may_have(json, 'types', dict)
    exceptions = members_of(json.get('exceptions'))
    for operation in map(members_of, members_of(json.get('operations')).values()):
        may_have(operation, 'comment', str)
        may_have(operation, 'raises', list)
        for raised in operation.get('raises', []):
            demand(isinstance(raised, str), OTHER_FORM)
            demand(raised in exceptions, 'an exception that is raised is not there')


def may_have(json, key, kind):
    """What stands under a key, where anything does, is of this kind."""
    demand(key not in json or isinstance(json[key], kind), OTHER_FORM)


def members_of(json):
    return json if isinstance(json, dict) else {}


# What names stand for

class Plain:
    """Makes the plain form of a file, by the types that it has."""

    def __init__(self, types):
        self.types, self.room = types, ROOM

    def file(self, json):
        """The file without what stands beside its plain form; it is the first level."""
        made = {key: part for key, part in json.items() if key not in BESIDE_FILE}
        return {key: self.operations(part) if key == 'operations' else self.part(part, 2)
                for key, part in made.items()}

    def operations(self, json):
        if not isinstance(json, dict):
            return self.part(json, 2)
        return {name: self.operation(form) for name, form in json.items()}

    def operation(self, json):
        if not isinstance(json, dict):
            return self.part(json, 3)
        return {key: self.part(form, 4) for key, form in json.items()
                if key not in BESIDE_OPERATION}

    def part(self, json, level, named=False):
        """A part on a level; of what a name stands for each part and each key takes room."""
        demand(level <= LEVELS, 'names nest too deep, or a type stands within itself')
        if named:
            self.take(json if isinstance(json, str) else '')
        if is_name(json):
            demand(json['type'] in self.types, 'a name has no type')
            return self.part(self.types[json['type']], level + 1, True)
        if isinstance(json, list):
            return [self.part(item, level + 1, named) for item in json]
        if isinstance(json, dict):
            return {self.key(key, named): self.part(form, level + 1, named)
                    for key, form in json.items()}
        return json

    def key(self, key, named):
        if named:
            self.take(key)
        return key

    def take(self, text):
        """One for a part or a key, and one for each octet of its text."""
        self.room -= 1 + len(text.encode())
        demand(self.room >= 0, 'names stand for too much')


def is_name(json):
    """Whether a part is a name of a type."""
    return isinstance(json, dict) and set(json) == {'type'} and isinstance(json['type'], str)


def depth_of(json):
    """How deep arrays and objects nest."""
    if isinstance(json, dict):
        json = list(json.values())
    return 1 + max(map(depth_of, json), default=0) if isinstance(json, list) else 0
