"""Problems of selection with their plans, for plan_to_svg: how they are read, and which of their parts are shown."""
import json, subprocess
from pathlib import Path

from pictures import Wrong

ROOT = Path(__file__).resolve().parent.parent
# How many links and how many points are shown of a problem, and of a profile.
MOST, MOST_OF_PROFILE = 20, 50


def number(value, where):
    """A whole number that is not negative."""
    if type(value) is not int or value < 0:
        raise Wrong(f"{where} is no whole number from 0: {json.dumps(value)[:60]}")
    return value


def at(value, kind, *keys):
    """What stands in an object at keys, one in the other, as a value of this type."""
    for depth, key in enumerate(keys):
        if not isinstance(value, dict) or key not in value:
            raise Wrong(f"there is no key {'.'.join(keys[: depth + 1])} (plan_to_svg --help says what is wanted)")
        value = value[key]
    if not isinstance(value, kind):
        raise Wrong(f"{'.'.join(keys)} is no {'list' if kind is list else 'object'}")
    return value


def below(value, count, where, what):
    """A number of one of so many."""
    if number(value, where) >= count:
        raise Wrong(f"{where} names {what} {value}, and there are {count}")
    return value


class Link:
    """A link of a problem: its name, gain, charge, needs, and what a plan makes of it."""

    def __init__(self, name, gain, charge, needs, may_be_chosen):
        self.name, self.gain, self.charge, self.needs, self.may_be_chosen = name, gain, charge, needs, may_be_chosen
        self.paid, self.chosen, self.others, self.title = 0, False, False, ""

    def with_needs(self, needs):
        """The same link with other needs."""
        one = Link(self.name, self.gain, self.charge, needs, self.may_be_chosen)
        one.paid, one.chosen, one.title = self.paid, self.chosen, self.title
        return one


class Point:
    """A point of a problem: its name, cost, and whether a plan has it."""

    def __init__(self, name, cost):
        self.name, self.cost, self.chosen, self.others, self.title = name, cost, False, False, ""


class Plan:
    """A problem with its plan, of which `flow` has the amount of each link and point between which something flows."""

    def __init__(self, both):
        self.links = [self.link(index, it) for index, it in enumerate(at(both, list, "problem", "links"))]
        costs = at(both, list, "problem", "costs")
        self.points = [Point(f"P{index}", number(it, f"problem.costs[{index}]")) for index, it in enumerate(costs)]
        self.value = number(both["plan"].get("value"), "plan.value") if at(both, dict, "plan") else 0
        self.flow, self.of_profile = {}, False
        self.take_amounts(both["plan"])
        for one, them in [("links", self.links), ("points", self.points)]:
            for index in at(both, list, "plan", one):
                them[below(index, len(them), f"plan.{one}", one[:-1])].chosen = True
        for index, link in enumerate(self.links):
            for point in link.needs:
                below(point, len(self.points), f"problem.links[{index}].needs", "point")

    def link(self, index, it):
        where = f"problem.links[{index}]"
        if not isinstance(it, dict) or not isinstance(it.get("needs"), list):
            raise Wrong(f"{where} is no object with a list needs")
        gain, charge = number(it.get("gain"), f"{where}.gain"), number(it.get("charge", 0), f"{where}.charge")
        return Link(f"L{index}", gain, charge, it["needs"], it.get("eligible", True) is True)

    def name_all(self, links, points):
        """Gives links and points the names that a profile has for them."""
        self.of_profile = True
        for one, name in [*zip(self.links, links), *zip(self.points, points)]:
            one.title = name

    def take_amounts(self, plan):
        """Takes the amounts of the flow and those that go to charges."""
        for index, row in enumerate(at({"plan": plan}, list, "plan", "flow")):
            if not isinstance(row, list) or len(row) != 3:
                raise Wrong(f"plan.flow[{index}] is no list of a link, a point and an amount")
            link = below(row[0], len(self.links), f"plan.flow[{index}]", "link")
            point = below(row[1], len(self.points), f"plan.flow[{index}]", "point")
            self.flow[link, point] = number(row[2], f"plan.flow[{index}]")
        for index, row in enumerate(at({"plan": {"charges": [], **plan}}, list, "plan", "charges")):
            if not isinstance(row, list) or len(row) != 2:
                raise Wrong(f"plan.charges[{index}] is no list of a link and an amount")
            self.links[below(row[0], len(self.links), f"plan.charges[{index}]", "link")].paid = number(row[1], "plan.charges")

    def sent(self, link):
        """What a link sends to points."""
        return sum(amount for (one, _), amount in self.flow.items() if one == link)

    def gets(self, point):
        """What a point gets from links."""
        return sum(amount for (_, one), amount in self.flow.items() if one == point)

    def title(self):
        gained = sum(it.gain for it in self.links if it.may_be_chosen)
        flow = sum(self.flow.values()) + sum(it.paid for it in self.links)
        return f"value {self.value}, flow {flow} of {gained} gained"


def value_in(text, where):
    """The value of JSON that a text is."""
    try:
        return json.loads(text)
    except (ValueError, RecursionError) as error:
        raise Wrong(f"{where} is no JSON: {error}") from error


def is_line(value):
    """Whether a value is a line of a profile."""
    return isinstance(value, dict) and ("point" in value or "link" in value)


def plan_of(profile):
    """The plan of a profile, which the program makes."""
    words = [ROOT / "mhlink", "profile", "--certificate"]
    done = subprocess.run(words, input=profile, capture_output=True, encoding="utf-8", check=False)
    if done.returncode:
        raise Wrong(f"mhlink profile: {(done.stderr.split(chr(10)) or ['no plan'])[0]}")
    return value_in(done.stdout.rstrip("\n").split("\n")[-1], "what mhlink profile writes")


def need_places(line, places, where):
    """The numbers of the points that a link's line names."""
    needs = at({"needs": [], **line}, list, "needs")
    for need in needs:
        if not isinstance(need, str) or need not in places:
            raise Wrong(f"{where} needs {json.dumps(need)[:60]}, which no earlier line has")
    return sorted(places[need] for need in needs)


def problem_of(lines):
    """The problem that the lines of a profile are, with the names of its links and points."""
    costs, links, places, names = [], [], {}, []
    for index, line in enumerate(lines):
        if "point" in line:
            places[str(line["point"])] = len(costs)
            costs.append(line.get("cost"))
        else:
            names.append(str(line["link"]))
            links.append({**line, "needs": need_places(line, places, f"entry {index} of the profile")})
    return {"costs": costs, "links": links}, names, list(places)


def profile_in(text, lines_of_plan):
    """The problem of a profile with its plan and their names; the plan stands in a text of its own, or last, or is made."""
    rows = [(line, value_in(line, f"line {index}")) for index, line in enumerate(text.split("\n"), 1) if line.strip()]
    last = None if is_line(rows[-1][1]) else rows.pop()[1]
    if lines_of_plan is not None:
        last = value_in(lines_of_plan.rstrip("\n").split("\n")[-1], "the last line of the plan")
    for line, value in rows:
        if not is_line(value):
            raise Wrong(f"{line[:60]} is no line of a profile")
    if last is None:
        last = plan_of(text)
    problem, links, points = problem_of([value for _, value in rows])
    plan = Plan({"problem": problem, "plan": last.get("plan", last) if isinstance(last, dict) else last})
    plan.name_all(links, points)
    return plan


def read(text, lines_of_plan, where):
    """The plan of a text: of a profile, where its first line is one of a profile, and else of a problem."""
    first = text.lstrip().split("\n")[0]
    try:
        of_profile = is_line(json.loads(first))
    except (ValueError, RecursionError):
        of_profile = False
    if of_profile:
        return profile_in(text, lines_of_plan)
    return Plan(value_in(text, where))


def most_of(amounts):
    """The places of the greatest amounts, in their order: at most MOST."""
    greatest = sorted(range(len(amounts)), key=lambda it: (-amounts[it], it))[:MOST]
    return sorted(greatest)


def places_after(shown, count):
    """For each of so many its place among those that are shown, and the place behind them for all others."""
    places = {it: place for place, it in enumerate(shown)}
    return [places.get(it, len(shown)) for it in range(count)]


def greatest(amounts, taken):
    """The places of the greatest amounts, in their order: half of what is taken, half of the rest, and more of one where the
    other has fewer."""
    kinds = [sorted((it for it in amounts if (it in taken) is kind), key=lambda it: (-amounts[it], it)) for kind in (True, False)]
    half = MOST_OF_PROFILE // 2
    most = max(half, MOST_OF_PROFILE - len(kinds[1])), max(half, MOST_OF_PROFILE - len(kinds[0]))
    return sorted(kinds[0][: most[0]] + kinds[1][: most[1]])


def gathered_profile(plan):
    """The same of the plan of a profile."""
    if max(len(plan.links), len(plan.points)) <= MOST_OF_PROFILE:
        return plan, None
    chosen = [{index for index, it in enumerate(them) if it.chosen} for them in (plan.links, plan.points)]
    links = greatest({index: it.gain for index, it in enumerate(plan.links) if it.may_be_chosen}, chosen[0])
    points = greatest({index: it.cost for index, it in enumerate(plan.points)}, chosen[1])
    points.sort(key=lambda it: middle(plan, links, it))
    out = f"{len(plan.links) - len(links)} links and {len(plan.points) - len(points)} points are left out"
    said = f"shown: {len(links)} links of the greatest gains and {len(points)} points of the greatest costs; {out}"
    return over_places(plan, links, points), said


def gathered(plan):
    """The plan with what is not shown gathered in one link and one point, and a line that says so; itself where all is shown."""
    if plan.of_profile:
        return gathered_profile(plan)
    if max(len(plan.links), len(plan.points)) <= MOST:
        return plan, None
    sent = [0] * len(plan.links)
    for (link, _), amount in plan.flow.items():
        sent[link] += amount
    links = most_of(sent)
    got = [0] * len(plan.points)
    for (link, point), amount in plan.flow.items():
        got[point] += amount if link in links else 0
    points = sorted(most_of(got), key=lambda it: middle(plan, links, it))
    out = f"{len(plan.links) - len(links)} links and {len(plan.points) - len(points)} points are left out"
    said = f"shown: what the plan turns on, the {len(links)} links that send most and {len(points)} points; {out}"
    return over_places(plan, links, points), said


def middle(plan, links, point):
    """The middle place of the links that send something to a point, so that edges to points in this order cross less."""
    amounts = [(place, plan.flow.get((link, point), 0)) for place, link in enumerate(links)]
    return sum(place * amount for place, amount in amounts) / max(sum(amount for _, amount in amounts), 1)


def over_places(plan, links, points):
    """The plan in which these links and points stand alone, and all others together."""
    small = Plan.__new__(Plan)
    to_link, to_point = places_after(links, len(plan.links)), places_after(points, len(plan.points))
    left = [it for index, it in enumerate(plan.links) if to_link[index] == len(links)]
    right = [it for index, it in enumerate(plan.points) if to_point[index] == len(points)]
    small.value, small.flow = plan.value, {}
    small.links = [plan.links[it] for it in links] + [gathered_link(left)] * bool(left)
    small.points = [plan.points[it] for it in points] + [gathered_point(right)] * bool(right)
    for (link, point), amount in plan.flow.items():
        place = to_link[link], to_point[point]
        small.flow[place] = small.flow.get(place, 0) + amount
    for place, link in enumerate(links):
        small.links[place] = plan.links[link].with_needs(sorted({to_point[it] for it in plan.links[link].needs}))
    return small


def gathered_link(them):
    gain = sum(it.gain for it in them if it.may_be_chosen)
    one = Link(f"+{len(them)}", gain, sum(it.charge for it in them), [], True)
    one.paid, one.others = sum(it.paid for it in them), True
    return one


def gathered_point(them):
    one = Point(f"+{len(them)}", sum(it.cost for it in them))
    one.others = True
    return one


