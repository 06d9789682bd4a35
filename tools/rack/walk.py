"""A context of named entries, so that the positions of a walk are counted by the script and not by hand.
Locals are named _0, _1, ..; 'd0' is that local 0 dies. Each method emits text and changes the context as the step does."""

import re


def weeded(text):
    """the text with only those names in its `use` lines that occur in it"""
    lines = text.split('\n')
    body = '\n'.join(re.sub(r'--.*', '', x) for x in lines if not x.startswith('use '))
    words = set(re.split(r'[\s(){}\[\];,.]+', body))
    out = []
    for x in lines:
        m = re.match(r'(use .*\.\{)(.*)\}$', x)
        if m:
            names = [n for n in m.group(2).split(', ') if (n.split(' as ')[-1] in words or n == '[]' or n.strip('_') in words)]
            if not names:
                continue
            x = m.group(1) + ', '.join(names) + '}'
        m = re.match(r'use [^{ ]+ as (\S+)$', x)
        if m and m.group(1) not in words:
            continue
        out.append(x)
    return '\n'.join(out)


class Walk:
    def __init__(self, ctx, indent='        '):
        self.c = list(ctx); self.out = []; self.open = 0; self.ind = indent

    def p(self, n):
        return self.c.index(n)

    def say(self, s):
        self.out.append(self.ind + s)

    def note(self):
        self.say('-- [' + '; '.join(x for x in self.c if not x.startswith('d')) + ']')

    # ---- entry
    def alloc(self, n, dollar=True):
        self.n = n
        s = ''.join('alloc1 ! (λ l%d. ' % k for k in range(n)) + 'alloc0 ! $ params1 ! $'
        self.open += n
        for k in range(n):
            self.c = ['_%d' % k, 'd%d' % k] + self.c
        self.say(s)

    def passes(self, typings):
        s = ' '.join('pass1 ! (init ! %d refl %s) $' % (self.p('_%d' % (k + 1)), t) for k, t in enumerate(typings)) + ' pass0 ! $'
        self.say(s)

    # ---- context
    def mv(self, *names):
        ps = [self.p(n) for n in names]
        self.c = list(names) + [x for x in self.c if x not in names]
        return 'move ! (%s ∷ []) $ ' % ' ∷ '.join(map(str, ps))

    def front(self, *names):
        """move only where it is needed"""
        if self.c[:len(names)] == list(names):
            return ''
        return self.mv(*names)

    def repl(self, k, *new):
        self.c = list(new) + self.c[k:]

    # ---- operands
    def ld(self, name):
        return '(load ! (from ! (stop !)) (look ! %d refl))' % self.p(name)

    def ldf(self, name, *fs):
        """a field of a struct in a local, f .. of f"""
        walk = '(stop !)'
        for _ in fs:
            walk = '(fld ! refl %s)' % walk
        part = '(whole !)'
        for f in fs:
            part = '(sub ! %d refl %s)' % (f, part)
        return '(load ! (from ! %s) (look-in ! %d %s))' % (walk, self.p(name), part)

    def args(self, *ops):
        s = '(no-more !)'
        for o in reversed(ops):
            s = '(and-then ! %s %s)' % (o, s)
        return s

    def at(self):
        return '(from ! (stop !))'

    def init(self, name, typing):
        return '%s (init ! %d refl %s)' % (self.at(), self.p(name), typing)

    def store(self, name, typing):
        return '%s (store ! %d refl %s)' % (self.at(), self.p(name), typing)

    # a slice in the local `src` is lent again as a pointer in `ptr` and a slice in `dst`
    def reborrow(self, src, ptr, dst, room):
        self.say('assigns ! (addr ! (from ! (fld ! refl (hop ! (look-in ! %d (sub ! 0 refl (whole !))) (stop !))))) %s $' % (self.p(src), self.init(ptr, '(tt, tt)')))
        self.say('assigns ! (agg ! %s) %s $' % (self.args(self.ld(ptr), self.ldf(src, 1)), self.init(dst, '(tt, (tt, (record { fits = %s .0 }, tt)))' % room)))

    # ---- exit
    def frees(self, keep_rooms=()):
        s = ' '.join('forget ! %d refl $' % self.p('_%d' % k) for k in reversed(range(self.n)) if '_%d' % k not in keep_rooms)
        self.say(s)
        s = ''
        for k in range(self.n):
            s += self.mv('_%d' % k, 'd%d' % k) + 'free1 ! $ '
            self.repl(2)
        self.say(s + 'free0 ! $')

    def keep(self, *names):
        s = 'keep ! (%s ∷ []) $ ' % ' ∷ '.join(str(self.p(n)) for n in names)
        self.c = list(names)
        return s

    def close(self, s):
        self.say(s + ')' * self.open)

    def text(self):
        return '\n'.join(self.out)
