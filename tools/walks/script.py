"""The lines of one proof script. A line may open a λ, which is closed at the script's end."""
import re

# steps that say little stand behind the step before them
SMALL_STEPS = 'move|drop|split|join|fsplit|fjoin|forget|free1|free0|nothing|alloc1|pass1|pass0'


class Script:
    def __init__(self):
        self.lines = []
        self.unclosed = 0

    def emit(self, line):
        self.lines.append(line)

    def open(self, line):
        self.lines.append(line)
        self.unclosed += 1

    def close_to(self, unclosed):
        """Ends an arm: closes what it opened, and the arm's own λ."""
        self.lines[-1] += ')' * (self.unclosed - unclosed) + ')'
        self.unclosed = unclosed

    def text(self, indent):
        text = '\n'.join(indent + line for line in self.lines)
        text = re.sub(r'\$\n *(?=(%s) )' % SMALL_STEPS, r'$ ', text)
        text = re.sub(r'(λ l[₀-₉]+\.)\n *(?=alloc)', r'\1 ', text)
        return text + ')' * self.unclosed
