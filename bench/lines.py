"""The seeded lines of `vx batch` that the benchmarks use: usual ones of each kind, and long ones of so many parts."""
import random

SEED = 16
SCHEMES = ["npm", "pypi", "maven", "gem", "deb", "rpm", "nuget", "cargo"]
# A line that is no command is read, refused and written, and nothing else.
EDGE = "no command"


def number(rng, most=40):
    return str(rng.randrange(most))


def release(rng):
    return ".".join(number(rng) for _ in range(3))


def npm_version(rng):
    return release(rng) + rng.choice(["", "", "", "-rc." + number(rng), "-alpha", "-beta.1"])


def pypi_version(rng):
    return release(rng) + rng.choice(["", "", "", "rc" + number(rng), ".post1", "+cu118", ".dev" + number(rng)])


def maven_version(rng):
    return release(rng) + rng.choice(["", "", "", "-SNAPSHOT", "-beta-" + number(rng), ".Final", "-jre"])


def gem_version(rng):
    return release(rng) + rng.choice(["", "", ".pre", ".rc1", ".beta2"])


def deb_version(rng):
    upstream = rng.choice(["", "", "1:"]) + release(rng) + rng.choice(["", "~rc1", "+dfsg"])
    return upstream + "-" + number(rng) + rng.choice(["", "ubuntu1"])


def rpm_version(rng):
    return rng.choice(["", "", "1:"]) + release(rng) + rng.choice(["", "~rc1", "^git1"]) + "-" + number(rng) + ".el9"


def nuget_version(rng):
    return release(rng) + rng.choice(["", "", "", "." + number(rng), "-rc." + number(rng), "-alpha"])


VERSION = {
    "npm": npm_version, "pypi": pypi_version, "maven": maven_version, "gem": gem_version, "deb": deb_version,
    "rpm": rpm_version, "nuget": nuget_version, "cargo": npm_version,
}


def npm_range(rng):
    a, b = npm_version(rng), release(rng)
    return rng.choice([f"^{a}", f"~{a}", f">={a} <{b}", f"{a} || {b}", f"{release(rng)} - {b}", f"{number(rng)}.x"])


def pypi_range(rng):
    a, b = release(rng), release(rng)
    return rng.choice([f">={a},<{b}", f"~={a}", f"=={a}", f"=={number(rng)}.*", f">={a},!={b}", f">{a}"])


def maven_range(rng):
    a, b = f"{number(rng)}.{number(rng)}", f"{int(number(rng)) + 40}.0-beta-1"
    return rng.choice([f"[{a},{b})", f"({a},)", f"[{a}]", f"(,{a}],[{b},)", f"[{a},{b}]"])


def gem_range(rng):
    a, b = gem_version(rng), gem_version(rng)
    return rng.choice([f"~> {a}", f">= {a}, < {b}", f"= {a}", f"!= {a}"])


def deb_range(rng):
    a, b = deb_version(rng), deb_version(rng)
    return rng.choice([f">= {a}", f">= {a}, << {b}", f"= {a} | >> {b}"])


def rpm_range(rng):
    a, b = rpm_version(rng), rpm_version(rng)
    return rng.choice([f">= {a}", f">= {a}, < {b}", f"= {a}"])


def nuget_range(rng):
    a, b = nuget_version(rng), f"{int(number(rng)) + 40}.0.0"
    return rng.choice([f"[{a},{b})", f"({a},)", f"[{a}]", a, f"(,{a}]"])


def cargo_range(rng):
    a, b = npm_version(rng), release(rng)
    return rng.choice([f"^{a}", a, f"~{a}", f">={a}, <{b}", f"={b}", f"{number(rng)}.*"])


RANGE = {
    "npm": npm_range, "pypi": pypi_range, "maven": maven_range, "gem": gem_range, "deb": deb_range,
    "rpm": rpm_range, "nuget": nuget_range, "cargo": cargo_range,
}


def domain_of(scheme):
    return "releases" if scheme in ("cargo", "gem", "pypi") else "all"


def vers(rng, scheme):
    """A VERS text of a few bounds, in order."""
    low, middle, high = (f"{n}.{number(rng)}.{number(rng)}" for n in sorted(rng.sample(range(60), 3)))
    tail = {"deb": "-1", "rpm": "-1"}.get(scheme, "")
    texts = [f">={low}{tail}|<{high}{tail}", f">={low}{tail}"]
    if scheme not in ("rpm", "nuget", "cargo"):
        texts += [f"{low}{tail}|>={middle}{tail}|<{high}{tail}", f">={low}{tail}|!={middle}{tail}|<={high}{tail}"]
    return f"vers:{scheme}/" + rng.choice(texts)


def purl(rng):
    name = "".join(rng.choice("abcdefghijklmnop") for _ in range(8))
    version = release(rng)
    return rng.choice([
        f"pkg:npm/%40{name}/core@{version}", f"pkg:pypi/{name.title()}_x@{version}", f"pkg:gem/{name}@{version}?platform=java",
        f"pkg:deb/debian/{name}@{version}-1?arch=amd64&distro=bookworm", f"pkg:golang/github.com/{name}/x@v{version}#cmd/a",
    ])


def same(rng):
    a = purl(rng)
    return f"{a}\t{rng.choice([a, a.replace('pkg:', 'PKG:'), purl(rng)])}"


def check(rng):
    scheme = rng.choice(["npm", "pypi", "gem", "nuget", "cargo"])
    return f"pkg:{scheme}/name@{release(rng)}\t{vers(rng, scheme)}"


def usual_kinds():
    """Each kind of usual line, by its name: what makes one from a source of random numbers."""
    made = {EDGE: lambda rng: "name\t" + npm_version(rng)}
    for scheme in SCHEMES:
        made[f"to-vers {scheme}"] = lambda rng, s=scheme: f"to-vers\t{s}\t{domain_of(s)}\t{RANGE[s](rng)}"
    for scheme in SCHEMES:
        made[f"from-vers {scheme}"] = lambda rng, s=scheme: f"from-vers\t{domain_of(s)}\t{vers(rng, s)}"
    for scheme in SCHEMES:
        made[f"canon {scheme}"] = lambda rng, s=scheme: f"canon\t{vers(rng, s)}"
    for scheme in SCHEMES:
        made[f"has {scheme}"] = lambda rng, s=scheme: f"has\t{vers(rng, s)}\t{VERSION[s](rng)}"
    made["check"] = lambda rng: f"check\t{check(rng)}"
    made["purl"] = lambda rng: f"purl\t{purl(rng)}"
    made["same"] = lambda rng: f"same\t{same(rng)}"
    return made


def usual_lines(make, count):
    rng = random.Random(SEED)
    return "".join(make(rng) + "\n" for _ in range(count))


def plain(i):
    return f"{i // 100}.{i % 100}.0"


def ending(scheme):
    return {"deb": "-1", "rpm": "-1"}.get(scheme, "")


def shuffled(parts):
    parts = list(parts)
    random.Random(7).shuffle(parts)
    return parts


def mixed(scheme, count, version=plain):
    """A VERS text of so many constraints, not sorted, with every comparator."""
    signs = ["", "!=", "<", "<=", ">", ">="]
    return f"vers:{scheme}/" + "|".join(shuffled(signs[i % 6] + version(i) + ending(scheme) for i in range(count)))


def points(scheme, count):
    return f"vers:{scheme}/" + "|".join(plain(i) + ending(scheme) for i in range(count))


def holes(scheme, count):
    return f"vers:{scheme}/" + "|".join("!=" + plain(i) + ending(scheme) for i in range(count))


def long_deb(i):
    return f"{i // 100}.{i % 100}~rc1-{i % 9}"


def one_version(scheme, count):
    """One version of so many parts."""
    parts = ".".join(str(i % 10) for i in range(count))
    return {"npm": f"1.0.0-{parts}", "nuget": f"1.0.0-{parts}", "cargo": f"1.0.0-{parts}", "deb": f"{parts}-1",
            "rpm": f"{parts}-1", "pypi": f"1.0+{parts}"}.get(scheme, parts)


def longest(make, most):
    """The line of so many bytes at the most that has the most parts, counted in hundreds."""
    count = 100
    while len(make(count + 100)) <= most:
        count += 100
    return make(count)


def long_kinds():
    """Each kind of long line, by its name: what makes one of so many parts."""
    made = {
        "to-vers npm, a||b": lambda n: "to-vers\tnpm\tall\t" + "||".join(plain(i) for i in range(n)),
        "to-vers npm, >=a >=b": lambda n: "to-vers\tnpm\tall\t" + " ".join(">=" + plain(i) for i in range(n)),
        "to-vers pypi, !=a,!=b": lambda n: "to-vers\tpypi\treleases\t" + ",".join("!=" + plain(i) for i in range(n)),
        "to-vers maven, [a],[b]": lambda n: "to-vers\tmaven\tall\t" + ",".join(f"[{plain(i)}]" for i in range(n)),
        "to-vers gem, != a, != b": lambda n: "to-vers\tgem\tall\t" + ",".join(f"!={plain(i)}" for i in range(n)),
        "to-vers deb, = a | = b": lambda n: "to-vers\tdeb\tall\t" + "|".join(f"={plain(i)}-1" for i in range(n)),
        "to-vers rpm, >= a, >= b": lambda n: "to-vers\trpm\tall\t" + ",".join(f">={plain(i)}-1" for i in range(n)),
        "from-vers npm, a|b": lambda n: "from-vers\tall\t" + points("npm", n),
        "from-vers pypi, !=a|!=b": lambda n: "from-vers\treleases\t" + holes("pypi", n),
        "from-vers maven, a|b": lambda n: "from-vers\tall\t" + points("maven", n),
        "from-vers gem, !=a|!=b": lambda n: "from-vers\tall\t" + holes("gem", n),
        "from-vers deb, a|b": lambda n: "from-vers\tall\t" + points("deb", n),
    }
    for scheme in SCHEMES:
        made[f"canon {scheme}, mixed"] = lambda n, s=scheme: "canon\t" + mixed(s, n)
    for scheme in SCHEMES:
        made[f"has {scheme}, mixed"] = lambda n, s=scheme: f"has\t{mixed(s, n)}\t7.50.0{ending(s)}"
    made["has deb, long versions"] = lambda n: f"has\t{mixed('deb', n, version=long_deb)}\t7.50"
    for scheme in SCHEMES:
        made[f"canon {scheme}, one version"] = lambda n, s=scheme: f"canon\tvers:{s}/{one_version(s, n)}"
    made["check, mixed"] = lambda n: f"check\tpkg:npm/a@7.50.0\t{mixed('npm', n)}"
    made["purl, namespaces"] = lambda n: "purl\tpkg:golang/" + "/".join(f"n{i}" for i in range(n)) + "/name@1"
    made["purl, qualifiers"] = lambda n: "purl\tpkg:golang/a@1?" + "&".join(shuffled(f"k{i}=v" for i in range(n)))
    made["purl, escapes"] = lambda n: "purl\tpkg:golang/a@" + "%20x" * n
    made["same, namespaces"] = lambda n: "same" + ("\tpkg:golang/" + "/".join(f"n{i}" for i in range(n)) + "/name@1") * 2
    return made
