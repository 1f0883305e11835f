"""The inputs of bench/run: scripts, traces and journals of one shape, made by seeds."""

import os
import random
import subprocess


# The requests of a generated trace, unless another number is asked for.
REQUESTS = 262_144


def entries_of(calls):
    return min(2 * calls + 4, 4_194_304)


def script_of(calls, tenants, workers, policy="2dfq", estimate="pessimistic", seed=7):
    """A script in which each tenant submits one request at first; from then on about as many requests are submitted as are
    taken and ended, of very uneven costs, and some are reported between. So about as many wait at the end as at the start."""
    draw = random.Random(seed)
    lines = [f"config {workers} {policy} {estimate} 1000 {entries_of(calls)} {min(calls, 262_144)}"]
    lines += [f"tenant t{t} {1 + t % 4}" for t in range(tenants)]
    lines += ["kind get", "kind scan"]
    submitted, waits, moment = 0, 0, 0
    free, runs = list(range(workers)), {}
    for _ in range(calls):
        moment += draw.randrange(20)
        x = draw.random()
        if submitted < tenants or x < 0.32 or not waits and not runs:
            tenant = submitted if submitted < tenants else draw.randrange(tenants)
            lines.append(f"submit 0 {moment} {tenant} {tenant % 2} {draw.choice((10, 100, 5000))} {submitted}")
            submitted, waits = submitted + 1, waits + 1
        elif free and waits and (x < 0.64 or not runs):
            worker = free.pop(draw.randrange(len(free)))
            lines.append(f"take {1 + worker} {moment} {worker}")
            runs[worker], waits = 0, waits - 1
        else:
            worker = draw.choice(list(runs))
            if x > 0.96:
                runs[worker] += draw.randrange(50)
                lines.append(f"report {1 + worker} {moment} {worker} {runs[worker]}")
            else:
                lines.append(f"done {1 + worker} {moment} {worker} {runs.pop(worker) + draw.choice((1, 40, 3000))}")
                free.append(worker)
    return "\n".join(["script 1", *lines]) + "\n"


def takes_of(takes, tenants, workers, is_worst):
    """A script in which the last worker takes a head that is not eligible for it, ends its request at cost 0, and the tenant
    submits it anew, again and again, while each tenant has a head. All moments and virtual time are 0. At worst each head is,
    for its finish, as long as an eligible key of 1 for the last worker allows, so that only a look at each head shows that
    none is eligible. Else heads are of uneven lengths."""
    draw, last = random.Random(11), workers - 1
    finishes = [10_000 + 2 * t for t in range(tenants)]
    lengths = [(it - 1) * workers // (2 * workers - 1) if is_worst else draw.randrange(1, 5_000) for it in finishes]
    lines = [f"config {workers} 2dfq declared 1000 {4 * tenants + 3 * takes} {2 * tenants + takes}"]
    lines += [f"tenant t{t} 1" for t in range(tenants)]
    lines += ["kind get"]
    for t, (finish, length) in enumerate(zip(finishes, lengths)):
        # (the tenant's start is the cost of its requests so far)
        lines += [f"submit 0 0 {t} 0 {finish - length} {t}", "take 1 0 0", f"done 1 0 0 {finish - length}"]
    heads = [f"submit 0 0 {t} 0 {length} {t}" for t, length in enumerate(lengths)]
    # (no head is eligible at virtual time 0: then the least eligible key goes first, and of equal keys the least finish)
    first = min(range(tenants), key=lambda t: (workers * (finishes[t] - lengths[t]) - last * lengths[t], finishes[t]))
    again = [f"take {1 + last} 0 {last}", f"done {1 + last} 0 {last} 0", heads[first]]
    return "\n".join(["script 1", *lines, *heads, *(again * takes)]) + "\n"


def backlog_of(tenants, seed=5):
    """A trace in which every tenant has one long request at 0, so that at first all have a backlog in the fluid reference."""
    draw = random.Random(seed)
    lines = [f"tenant,t{t},{1 + t % 1000}" for t in range(tenants)]
    lines += [f"request,0,0,t{t},get,1,{draw.randrange(10**8, 10**9)}" for t in range(tenants)]
    return "\n".join(lines) + "\n"


def calls_of(journal):
    """The script whose calls make this journal."""
    with open(journal) as lines:
        script = []
        for line in lines:
            words = line.split()
            if words[0] == "journal":
                words[0] = "script"
            elif words[0] == "submit":
                del words[3]
            elif words[0] == "take":
                del words[4:]
            elif words[0] in ("report", "done"):
                del words[4]
            script.append(" ".join(words) + "\n")
    return "".join(script)


def write(name, text_of, *numbers):
    """Makes a text in a process of its own, so that this process stays small: a child's peak begins with its parent's size."""
    child = os.fork()
    if child == 0:
        with open(name, "w") as file:
            file.write(text_of(*numbers))
        os._exit(0)
    os.waitpid(child, 0)
    return name


def generate(program, tenants, name, requests=REQUESTS, seed=1):
    made = [program, "gen", "--seed", str(seed), "--tenants", str(tenants), "--requests", str(requests)]
    with open(name, "w") as file:
        subprocess.run(made, stdout=file, check=True)
    return name
