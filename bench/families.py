#!/usr/bin/env python3
"""Families of tasks that grow with a size, for measuring the planner.

    bench/families.py                  lists the families, with the sizes that bench/run takes
    bench/families.py FAMILY SIZE      writes the task file to standard output
"""

import sys


def numbered(letter, count):
    return [f"{letter}{i}" for i in range(1, count + 1)]


def listed(words):
    return ", ".join(words)


def both(parts):
    return parts[0] if len(parts) == 1 else "(" + " and ".join(parts) + ")"


def muddy(n):
    """n children with mud on their foreheads, who see each other: 2^n worlds, deep knowledge"""
    children = numbered("c", n)
    sees = "\n".join(
        f"  sees {{ {child} }} {{ {listed(f'muddy({other})' for other in children if other != child)} }}"
        for child in children
        if n > 1
    )
    return (
        f"""task muddy;
types {{ child < agent; }}
objects {{ {listed(children)} : child; }}
fluents {{ muddy(child); }}
init {{
  vary {{ {listed(f"muddy({child})" for child in children)} }}
  law true;
{sees}
  designated forall (c : child) muddy(c);
}}
action father {{ announce exists (c : child) muddy(c); }}
action silence {{ announce forall (c : child) (not knows c muddy(c) and not knows c not muddy(c)); }}
goal forall (c : child) knows c muddy(c);
""",
        ["--depth", str(n)],
    )


def sensing(n):
    """three agents look at n facts in any order: many states of up to 2^n worlds"""
    facts = numbered("f", n)
    return (
        f"""task sensing;
types {{ fact < object; }}
objects {{ ann, bob, eve : agent; {listed(facts)} : fact; }}
fluents {{ so(fact); }}
init {{
  vary {{ {listed(f"so({fact})" for fact in facts)} }}
  law true;
  designated forall (f : fact) so(f);
}}
action look(who : agent, what : fact) {{ sense so(what) by {{ who }}; }}
goal ((forall (f : fact) knows ann so(f)) and not knows bob so(f1));
""",
        ["--depth", str(min(n, 6)), "--states", "8000"],
    )


def assembly(n):
    """two agents test and tell of n parts, and assemble what is known to be whole"""
    parts = numbered("p", n)
    last = parts[-1]
    return (
        f"""task assembly;
types {{ part < object; }}
objects {{ ann, bob : agent; {listed(parts)} : part; }}
fluents {{ broken(part); done; }}
init {{
  vary {{ {listed(f"broken({part})" for part in parts)} }}
  law true;
  designated not broken(p1);
}}
action test(who : agent, what : part) {{ sense broken(what) by {{ who }}; }}
action tell(what : part) {{ announce knows ann not broken(what); }}
action assemble {{ assign when (not done and knows bob not broken(p1)) {{ done := true; }} }}
goal (done and knows ann knows bob not broken(p1) and knows bob knows ann not broken(p2) and not knows ann not broken({last}));
""",
        ["--depth", "4", "--states", "4000"],
    )


def lights(n):
    """n lamps that nobody sees are switched by events that differ in nothing: many bisimilar copies"""
    lamps = numbered("l", n)
    flips = "\n".join(f"  event e{i} pre true {{ on(x) := not on(x); }}" for i in range(1, 5))
    return (
        f"""task lights;
types {{ lamp < object; }}
objects {{ ann, bob, eve : agent; {listed(lamps)} : lamp; }}
fluents {{ on(lamp); }}
init {{ world dark {{ }} designated {{ dark }} links all all; }}
action flip(x : lamp) {{
{flips}
  designated {{ e1, e2, e3, e4 }}
  links all all;
}}
action blink(x : lamp) {{
  event lit pre true {{ on(x) := true; }}
  event unlit pre true {{ on(x) := false; }}
  designated {{ lit }}
  links all all;
  links {{ ann }} same;
}}
goal forall (x : lamp) (on(x) and knows ann on(x));
""",
        ["--depth", str(min(n, 5)), "--states", "4000"],
    )


def gossip(n):
    """n agents call each other in private and tell one secret a call: states grow"""
    agents = numbered("a", n)
    secrets = listed(f"secret({agent})" for agent in agents)
    sees = "\n".join(f"  sees {{ {agent} }} {{ secret({agent}) }}" for agent in agents)
    return (
        f"""task gossip;
objects {{ {listed(agents)} : agent; }}
fluents {{ secret(agent); }}
init {{
  vary {{ {secrets} }}
  law true;
{sees}
  designated forall (a : agent) secret(a);
}}
action tell(a : agent, b : agent, c : agent) {{ private knows a secret(c) to {{ a, b }}; }}
goal (knows a2 secret(a1) and knows a3 secret(a1) and knows a1 secret(a{n}) and not knows a2 knows a3 secret(a1));
""",
        ["--depth", "3", "--states", "6000"],
    )


def corridor(n):
    """one agent walks along n cells: deep plans, states of one world"""
    cells = numbered("p", n)
    steps = "".join(
        f"action go_{i} {{ assign when at_p{i} {{ at_p{i} := false; at_p{i + 1} := true; }} }}\n"
        f"action back_{i} {{ assign when at_p{i + 1} {{ at_p{i + 1} := false; at_p{i} := true; }} }}\n"
        for i in range(1, n)
    )
    return (
        f"""task corridor;
objects {{ ann : agent; }}
fluents {{ {" ".join(f"at_{cell};" for cell in cells)} }}
init {{ world start {{ at_p1 }} designated {{ start }} }}
{steps}goal at_p{n};
""",
        ["--depth", str(n), "--states", str(min(16384, 4 * n + 10))],
    )


def wide(n):
    """actions of n events on 256 worlds: products of up to 4,096 worlds that contract to 256"""
    facts = numbered("x", 8)
    spread = "\n".join(f"  event e{i} pre true {{ }}" for i in range(n))
    mix = "\n".join(
        f"  event e{i} pre true {{ {' '.join(f'x{k + 1} := not x{k + 1};' for k in range(4) if i >> k & 1)} }}" for i in range(n)
    )
    return (
        f"""task wide;
objects {{ ann, bob, eve : agent; }}
fluents {{ {" ".join(f"{fact};" for fact in facts)} done; }}
init {{
  vary {{ {listed(facts)} }}
  law true;
  sees {{ ann }} {{ x1, x2, x3, x4 }}
  sees {{ bob }} {{ x5, x6 }}
  designated x1;
}}
action spread {{
{spread}
  designated {{ e0 }}
  links all all;
  links {{ ann }} same;
}}
action mix {{
{mix}
  designated {{ e0 }}
  links all all;
}}
action look {{ sense (x7 and x8) by {{ eve }}; }}
action peer {{ sense (x2 and x3) by {{ bob }}; }}
goal (done and x1);
""",
        ["--depth", "3", "--states", "300"],
    )


def announces(n):
    """n^2 announcements and as many looks over 2^n worlds, which share their formulas"""
    parts = numbered("p", n)
    return (
        f"""task announces;
types {{ part < object; }}
objects {{ ann, bob : agent; {listed(parts)} : part; }}
fluents {{ f(part); }}
init {{
  vary {{ {listed(f"f({part})" for part in parts)} }}
  law true;
  sees {{ ann }} {{ f(p1), f(p2) }}
  sees {{ bob }} {{ f(p{n}) }}
  designated (f(p1) and f(p2));
}}
action say(x : part, y : part) {{ announce (f(x) or knows ann f(y)); }}
action test(x : part, y : part) distinct {{ sense (f(x) and not f(y)) by {{ bob }}; }}
goal (knows bob (f(p1) and f(p2)) and knows ann f(p{n}));
""",
        ["--depth", "2", "--states", "2000"],
    )


# each family with the sizes that bench/run takes
FAMILIES = [
    (muddy, [4, 6, 8]),
    (sensing, [3, 4, 5]),
    (assembly, [4, 6, 8]),
    (lights, [4, 6]),
    (gossip, [3, 4]),
    (corridor, [60, 120, 250]),
    (wide, [4, 8, 16]),
    (announces, [4, 8]),
]


def main(words):
    families = {make.__name__: make for make, _ in FAMILIES}
    if len(words) == 2 and words[0] in families and words[1].isdigit():
        text, _ = families[words[0]](int(words[1]))
        sys.stdout.write(text)
        return 0
    for make, sizes in FAMILIES:
        print(f"{make.__name__:10} {', '.join(map(str, sizes)):14} {make.__doc__}")
    return 0 if not words else 2


if __name__ == "__main__":
    sys.exit(main(sys.argv[1:]))
