"""A cactus plot, and a scatter plot against each peer, as SVG."""
try:
    import matplotlib
    matplotlib.use("svg")
    import matplotlib.pyplot as plot
except ImportError:
    plot = None

LEAST = 1e-3  # seconds: what is faster is drawn here


def draw(folder, results, limit, caption):
    """Writes the pictures into the folder; the names of the files, none without matplotlib."""
    if plot is None:
        print("pictures: matplotlib isn't installed (Debian's package python3-matplotlib), skipped")
        return []
    # the same figures give the same file, and letters stay text
    matplotlib.rcParams.update({"svg.hashsalt": "tarmo", "svg.fonttype": "none", "font.size": 9})
    names = [cactus(folder, results, limit, caption)]
    return names + [scatter(folder, results, peer, limit, caption) for peer in results.peers]


def cactus(folder, results, limit, caption):
    """How many texts each program ends within a time, for programs that read all texts."""
    figure, axes = plot.subplots(figsize=(7, 4.5))
    texts = len(results.of("tarmo"))
    for program, marker in zip(results.programs, "osD^v"):
        found = results.of(program)
        if len(found) < texts:
            continue  # it can't read all texts
        ended = sorted(max(result.seconds, LEAST) for result in found if result.ended)
        axes.plot(range(1, len(ended) + 1), ended, marker=marker, markersize=3, linewidth=1,
                  label=f"{program}: {len(ended)}")
    axes.set(yscale="log", xlabel=f"texts ended, of {texts}", ylabel="seconds for a text",
             title="Texts ended within a time")
    axes.axhline(limit, color="grey", linewidth=0.8, linestyle="--")
    axes.legend(loc="upper left")
    return saved(folder, figure, "cactus.svg", caption)


def scatter(folder, results, peer, limit, caption):
    """Each text at the peer's time and Tarmo's; above the diagonal Tarmo is slower."""
    figure, axes = plot.subplots(figsize=(5.5, 5.5))
    for family, marker in zip(results.families, "osD^v<>Px*"):
        pairs = results.pairs(peer, family)
        axes.plot([max(other.seconds, LEAST) for _, other in pairs],
                  [max(one.seconds, LEAST) for one, _ in pairs], marker, markersize=4,
                  label=family, alpha=0.8)
    edges = [LEAST, 1.5 * limit]
    for factor, style in ((1, "-"), (10, ":"), (0.1, ":")):
        axes.plot(edges, [factor * edge for edge in edges], style, color="grey", linewidth=0.8)
    axes.axhline(limit, color="grey", linewidth=0.8, linestyle="--")
    axes.axvline(limit, color="grey", linewidth=0.8, linestyle="--")
    axes.set(xscale="log", yscale="log", xlim=edges, ylim=edges, xlabel=f"{peer}, seconds",
             ylabel="tarmo, seconds", title=f"Tarmo and {peer}, a point a text")
    axes.legend(loc="lower right", fontsize=7)
    return saved(folder, figure, f"scatter-{peer.replace(' ', '-')}.svg", caption)


def saved(folder, figure, name, caption):
    figure.text(0.01, 0.005, caption, fontsize=6, color="grey")
    figure.tight_layout(rect=(0, 0.04, 1, 1))
    figure.savefig(folder / name, metadata={"Date": None})
    plot.close(figure)
    return name
