"""The ready list of a schedule, cycle by cycle: by its definition, over all operations in each cycle."""
MOST_LISTED = 16


def listed(parts):
    return ",".join(parts) or "-"


def ready_lines(schedule):
    """The lines of `explain --cycles` that are of cycles."""
    places, ranks = schedule.places, schedule.ranks
    issue_order = sorted(places, key=places.get)

    def ranked(cycle):
        """What is ready at a cycle, the first choice first."""
        waiting = [j for j in places if schedule.ready(j) <= cycle <= places[j][0]]
        return sorted(waiting, key=lambda j: (-ranks[j], j))

    def following(cycle):
        """The next cycle at which something is ready, or the number of rows."""
        return next((later for later in range(cycle + 1, len(schedule.rows)) if ranked(later)), len(schedule.rows))

    def next_out(cycle):
        left = [j for j in ranked(cycle) if places[j][0] != cycle]
        if left:
            keeper = schedule.keeper(left[0], cycle)
            return f"{left[0]} held {'free' if keeper is None else keeper}"
        later = following(cycle)
        return f"{ranked(later)[0]} at {later}" if ranked(later) else "-"

    cycle = 0
    while cycle < len(schedule.rows):
        ready, end = ranked(cycle), cycle + 1
        if not ready:
            end = following(cycle)
        span = str(cycle) if end == cycle + 1 else f"{cycle}-{end - 1}"
        more = [f"+{len(ready) - MOST_LISTED}"] if len(ready) > MOST_LISTED else []
        taken = [next((str(j) for j, place in places.items() if place == (cycle, unit)), "-") for unit in (0, 1)]
        arrivals = [(i, places[i][0] + schedule.ops[i].latency(schedule.latencies)) for i in issue_order
                    if places[i][0] < cycle]
        active = [f"{i}@{arrival}" for i, arrival in arrivals if arrival > cycle]
        yield (f"cycle {span} ready {listed([f'{j}:{ranks[j]}' for j in ready[:MOST_LISTED]] + more)}"
               f" takes {taken[0]} ; {taken[1]} next {next_out(cycle)} active {listed(active)}")
        cycle = end
