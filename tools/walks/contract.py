"""A function's contract, as a walk cites it: one fact before, one fact after, at given values."""
import re

from .words import NAME_CHAR, parens, stop, whole_word

# stands for a parameter, or with no name for the result, until all are found
MARK = '⟪%s⟫'
ENTRY = r'now\s*\(\s*%s\s*\.entry\s*\)', r'now\s+%s', r'\(\s*%s\s*\.entry\s*\)', r'%s\s*\.entry\b'


def one_fact(text, clause, path):
    match = re.fullmatch(r'\s*⌜(.*)⌝\s*', text, re.S)
    if not match or '⌜' in match.group(1):
        stop('the %s of `%s` is not one fact ⌜ .. ⌝, which is what a walk can cite' % (clause, path))
    return ' '.join(match.group(1).split())


class Contract:
    def __init__(self, repository, path):
        source = repository.crate(path.split('::')[0])
        if path not in source.functions:
            stop('the source of `%s` is not found' % path)
        function = source.functions[path]
        self.path = path
        self.params = function['params']
        self.uses = source.uses[function['module']]
        if 'ghost' in function:
            stop('`%s` has a `ghost` clause, which walks do not know' % path)
        for clause in ('requires', 'ensures'):
            if len(function.get(clause, [])) > 1:
                stop('`%s` has several `%s` clauses: join them with ×' % (path, clause))
        self.requires = ''
        if 'requires' in function:
            self.requires = one_fact(function['requires'][0], '`requires`', path)
        self.result = '_'
        self.ensures = ''
        if 'ensures' in function:
            match = re.fullmatch(r'\s*λ\s*\(?\s*(%s+)[^.]*\.(.*)' % NAME_CHAR, function['ensures'][0], re.S)
            if not match:
                stop('the `ensures` of `%s` is not λ r. ⌜ .. ⌝' % path)
            self.result = match.group(1)
            self.ensures = one_fact(match.group(2), '`ensures`', path)

    def rename(self, name, new):
        self.requires = re.sub(whole_word(name), new, self.requires)
        self.ensures = re.sub(whole_word(name), new, self.ensures)

    def speaks_of_result(self, text):
        return self.result != '_' and re.search(whole_word(self.result), text)

    def at(self, text, values, lasts, result):
        """The text with each parameter at its value (a list for a slice), at exit at its last list, and the result
        at `result`."""
        # marks first, so that no value is taken for a parameter
        for param in self.params:
            text = re.sub(r'(?<!\.)«%s»' % param, param, text)
            name = whole_word(param)
            mark = MARK % param
            if param in lasts:
                text = re.sub(r'now\s*\(\s*%s\s*\.exit\s*\)' % name, lambda found: parens(lasts[param]), text)
            for form in ENTRY:
                text = re.sub(form % name, lambda found: mark, text)
        if self.result != '_':
            text = re.sub(whole_word(self.result), lambda found: MARK % '', text)
        for param in self.params:
            text = re.sub(whole_word(param) + r'(?!⟫)', lambda found: MARK % param, text)
        for param in self.params:
            text = text.replace(MARK % param, parens(values[param]))
        return text.replace(MARK % '', parens(result))
