"""Finds the files that units can reach: reads their include lines, and looks for each name."""
import os
import re
import time

from commands import PREDEFINED, at, unique

HEADERS = (".h", ".hh", ".hpp", ".hxx", ".inc", ".inl", ".def", ".tbl", ".ipp", ".x")
COMMENT = rb"/\*[^*]*\*+(?:[^/*][^*]*\*+)*/"
BLANK = rb"(?:[ \t\v\f\r]|" + COMMENT + rb")*"
INCLUDE = re.compile(rb"[#%]:?" + BLANK + rb"include(_next)?(?![\w$])" + BLANK
                     + rb"(?:\"([^\"\n]+)\"|<([^>\n]+)>|([A-Za-z_$\\\x80-\xff][\w$\\\x80-\xff]*))")
ASKED = re.compile(rb"\b__has_include(?:_next)?" + BLANK + rb"\(" + BLANK + rb"(?:\"([^\"\n]+)\"|<([^>\n]+)>)")
# names that a compiler's operators may be asked for: in calls of a macro whose name ends like an operator's, and in all calls in a condition
OPERATOR = re.compile(rb"has_(?:attribute|c_attribute|cpp_attribute|builtin|feature|extension)[ \t]*\([ \t]*([A-Za-z_]\w*)[ \t]*\)", re.IGNORECASE)
CONDITION = re.compile(rb"#[ \t]*(?:el)?if\b([^\n]*)")
CALLED = re.compile(rb"\b(?!defined\b)[A-Za-z_]\w*[ \t]*\([ \t]*([A-Za-z_]\w*)[ \t]*\)")
# comments, and literals, in which `/*` begins no comment
PASSED = re.compile(rb"/\*.*?\*/|//[^\n]*|\"(?:\\.|[^\"\\\n])*\"|'(?:\\.|[^'\\\n])*'", re.DOTALL)
SPLICE = re.compile(rb"\\\r?\n")
SPLICE_OR_TRIGRAPH = re.compile(rb"(?:\\|\?\?/)\r?\n")
TRIGRAPH = re.compile(rb"\?\?[=/'()!<>-]")
QUOTE, ANGLE, COMPUTED, EACH = "quote", "angle", "computed", "each"
# a file that is younger may change again and keep its time
TIE = 2000000000


class Files:
    """Holds what is on disk; looks at each file and directory once.

    With the profile gnu, `#include_next`, `__has_include` and `__has_include_next` count, too.  With `every`, a name stands for each file that it may be, and a
    name that a macro makes is looked up in `settled`; otherwise a name is the first file found, and a macro's name may be any header."""

    def __init__(self, report, gnu, every=False):
        self.report, self.gnu, self.every = report, gnu, every
        self.lines, self.there, self.below, self.operators = {}, {}, {}, {}
        self.missing, self.settled, self.shadows, self.defines, self.trigraphs = set(), {}, {}, {}, {}
        # by path: what `stamp` returned before the file was read
        self.stamps = {}

    def is_file(self, path):
        if path not in self.there:
            self.there[path] = os.path.isfile(path)
        return self.there[path]

    def includes(self, path):
        """Returns the include lines of a file, each as its form and its name."""
        if path not in self.lines:
            self.lines[path], self.operators[path] = self.seen(path)
        return self.lines[path]

    def seen(self, path):
        """Returns the include lines of a file on disk, and the names that it may ask a compiler's operators for."""
        self.stamps[path] = stamp(path)
        return seen_in(content(path), self.gnu)

    def say_trigraphs(self, paths):
        """Reports each of these files that has a trigraph."""
        for path in paths:
            if path not in self.trigraphs:
                self.trigraphs[path] = TRIGRAPH.search(content(path)) is not None
            if self.trigraphs[path]:
                self.report.add("%s: has a trigraph, which the compiler replaces under -std, -ansi or -trigraphs, and the profile gnu doesn't" % path)

    def computed_by(self, path):
        """Returns the macros that make the names of include lines of this file."""
        return {name for form, name in self.includes(path) if form == COMPUTED}

    def defined_of(self, names, paths):
        """Returns which of these names the files define; predefined names, and names not written in plain ASCII, always count."""
        found = {name for name in names if name in PREDEFINED or not name.isascii() or "\\" in name}
        words = [os.fsencode(name) for name in sorted(names)]
        word = re.compile(rb"\bdefine" + BLANK + b"(%s)(?![\\w$])" % b"|".join(map(re.escape, words)))
        for path in paths:
            if (path, word) not in self.defines:
                text = joined_lines(content(path), self.gnu)
                self.defines[path, word] = {os.fsdecode(name) for name in word.findall(text)} if any(name in text for name in words) else set()
            found |= self.defines[path, word]
        return found

    def headers(self, folder):
        """Returns every header in a directory and below it, without hidden directories."""
        if folder not in self.below:
            found = []
            for where, folders, names in os.walk(folder):
                folders[:] = sorted(name for name in folders if not name.startswith("."))
                found += [os.path.join(where, name) for name in sorted(names) if name.endswith(HEADERS)]
            self.below[folder] = found
        return self.below[folder]

    def first(self, folders, name):
        """Returns the first file of this name in the directories, or None."""
        for folder in folders:
            path = joined(folder, name)
            if self.is_file(path):
                self.report.same(os.path.join(folder, name), path)
                return path
        return None

    def each(self, folders, name):
        """Returns each file of this name in the directories."""
        found = []
        for folder in folders:
            path = joined(folder, name)
            if self.is_file(path):
                found.append(path)
            if ".." in name and (found[-1:] == [path] or os.path.isfile(os.path.join(folder, name))):
                self.report.same(os.path.join(folder, name), path)
        return found

    def reach(self, starts, lookup):
        """Returns these files and all files that they reach over a search, in the order in which they are found."""
        reached, passed = dict.fromkeys(starts), set()
        waiting = list(reversed(list(reached)))
        while waiting:
            path = waiting.pop()
            fresh = [found for found in unique(lookup.files_for(path, passed)) if found not in reached]
            reached.update(dict.fromkeys(fresh))
            waiting += reversed(fresh)
        return list(reached)

    def above(self, paths, wanted, lookup):
        """Returns the wanted files, and those of `paths` from which one of them is reached."""
        includers, reached, waiting = {}, set(wanted), list(wanted)
        for path in paths if waiting else ():
            for found in lookup.files_for(path):
                includers.setdefault(found, []).append(path)
        while waiting:
            fresh = [path for path in includers.get(waiting.pop(), ()) if path not in reached]
            reached.update(fresh)
            waiting += fresh
        return reached

    def say_shadow(self, path, name, found):
        """Reports a name in angle brackets that is found in an -iquote directory, since a list has one kind of directory."""
        self.report.add("%s: <%s> is found in an -iquote directory, as %s" % (path, name, found))

    def say_shadows(self, members):
        """Reports each such file that is on the list and comes before the right one."""
        for (path, name), found in self.shadows.items():
            if found in members:
                self.say_shadow(path, name, found)

    def settle(self, path, name):
        """Records a name that a macro makes in this file."""
        self.settled.setdefault(path, {})[name] = None

    def names_for_operators(self, paths):
        """Returns the names that these files may ask a compiler's operators for."""
        names = set()
        for path in paths:
            self.includes(path)
            names.update(self.operators[path])
        return names


class Lookup:
    """Remembers the files that names stand for over one search: each name is looked for once, and next to each includer's directory once."""

    def __init__(self, files, search, quotes):
        self.files, self.search, self.quotes, self.known, self.report = files, search, quotes, {}, files.report

    def files_for(self, path, passed=None):
        """Yields the files that a file's include lines can ask for, but not for lines in `passed`, to which it adds the others."""
        own = os.path.dirname(path)
        for form, name in self.files.includes(path):
            key = (form, name) if form == ANGLE else (form, path) if form == COMPUTED else (form, name, own)
            if passed is not None:
                if key in passed:
                    continue
                passed.add(key)
            if key not in self.known:
                self.known[key] = list(self.computed(path, own) if form == COMPUTED else self.named(path, own, form, name))
            yield from self.known[key]

    def computed(self, path, own):
        """Yields the files of a name that a macro makes: every header, or the files of the known names."""
        if self.files.every:
            for name in self.files.settled.get(path, ()):
                yield from self.named(path, own, EACH, name)
            return
        for folder in unique((own, *self.search)):
            yield from self.files.headers(folder)
        if self.quotes:
            self.report.add("%s: a name that a macro makes is also searched in -iquote directories" % path)

    def named(self, path, own, form, name):
        if name.startswith("/"):
            if not self.files.every:
                self.report.add("%s: an include line names %s, which is fault 30" % (path, name))
            return []
        folders = self.search if form == ANGLE else (own, *self.search)
        if form == EACH or self.files.every:
            return self.every(path, form, name, folders)
        return self.resolved(path, form, name, folders)

    def every(self, path, form, name, folders):
        """Returns each file of this name; for a name in angle brackets without the directories for names in quotes."""
        if form != ANGLE or not self.quotes:
            return self.files.each(folders, name)
        shadow = self.files.first(folders[:self.quotes], name)
        if shadow is not None:
            self.files.shadows[path, name] = shadow
        return self.files.each(folders[self.quotes:], name)

    def resolved(self, path, form, name, folders):
        found = self.files.first(folders, name)
        if form == ANGLE and found != self.files.first(folders[self.quotes:], name):
            self.files.say_shadow(path, name, found)
        if found is None:
            self.files.missing.add(name)
            return []
        return [found]


def content(path):
    """Returns a file's bytes, or none if it can't be read: a unit that opens it has a fault."""
    try:
        with open(path, "rb") as file:
            return file.read()
    except OSError:
        return b""


def stamp(path):
    """Returns a file's size, its time, and the hash of its content if its time may be that of a later change, too; None without a file."""
    try:
        found = os.stat(path)
    except OSError:
        return None
    young = found.st_mtime_ns + TIE > time.time_ns()
    return [found.st_size, found.st_mtime_ns, hashed(content(path)) if young else None]


def is_same(path, stamped):
    """Returns whether a file is as it was when `stamp` returned this."""
    now = stamp(path)
    if now is None or stamped is None or now[:2] != stamped[:2]:
        return False
    return stamped[2] is None or hashed(content(path)) == stamped[2]


def hashed(data):
    import hashlib
    return hashlib.blake2b(data, digest_size=16).hexdigest()


def joined_lines(text, gnu):
    """Returns the text with lines that end in a backslash joined to the next; except in the profile gnu, trigraphs for # and \\ count."""
    if not gnu and b"??" in text:
        return SPLICE_OR_TRIGRAPH.sub(b"", text).replace(b"??=", b"#")
    return SPLICE.sub(b"", text) if b"\\\n" in text or b"\\\r\n" in text else text


def seen_in(data, gnu):
    """Returns the include lines of a file with these bytes, and the names that it may ask a compiler's operators for."""
    text = joined_lines(data, gnu)
    found = include_lines(text, gnu) if b"include" in text else []
    if any(form == COMPUTED for form, _ in found):
        # it may be in a comment; to see that takes longer
        seen = include_lines(PASSED.sub(uncommented, text), gnu)
        found = [pair for pair in found if pair[0] != COMPUTED or pair in seen]
    if gnu and b"__has_include" in text:
        found += [(EACH, os.fsdecode(asked[1] or asked[2])) for asked in ASKED.finditer(text)]
    return unique(found), operators_in(text)


def joined(folder, name):
    """Returns the normalized path of a name below a directory."""
    return at(folder, name) if "//" in name or "./" in name or folder == "/" else "%s/%s" % (folder, name)


def include_lines(text, gnu):
    """Returns the include lines of a text, each as its form and name; before them is only white space or the end of a comment."""
    found = []
    for line in INCLUDE.finditer(text):
        before = text[text.rfind(b"\n", 0, line.start()) + 1:line.start()].strip()
        if not before or before.endswith(b"*/"):
            found.append(form_and_name(line, gnu))
    return unique(pair for pair in found if pair is not None)


def form_and_name(found, gnu):
    """Returns an include line's form and name, or the macro that makes the name.  `#include_next` may find each file of its name."""
    following, quoted, angled, macro = found.groups()
    if following is not None:
        if not gnu:
            return None
        return (COMPUTED, os.fsdecode(macro)) if macro is not None else (EACH, os.fsdecode(quoted or angled))
    if quoted is not None:
        return QUOTE, os.fsdecode(quoted)
    return (ANGLE, os.fsdecode(angled)) if angled is not None else (COMPUTED, os.fsdecode(macro))


def uncommented(found):
    return b" " if found[0][:1] == b"/" else found[0]


def operators_in(text):
    """Returns the names that a file may ask a compiler's operators for."""
    names = {found[1] for line in CONDITION.finditer(text) for found in CALLED.finditer(line[1])}
    if b"has_" in text or b"HAS_" in text:
        names.update(found[1] for found in OPERATOR.finditer(text))
    return [name.decode("latin-1") for name in names]
