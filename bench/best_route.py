"""What the best real route of a problem delivers: the least bound over all real prices.

Pools are (tokens, gamma, reserves), gamma being the part of an input that counts, and what is given is an amount of some tokens, none
for a cycle. The bound is convex in the prices. In relative prices its second derivative is a weighted graph: an edge for each pool that
trades.
"""
import math


def sides(pool, prices):
    """The places of the token that the best trade puts in and of the one that it takes out, and what the reserves are worth, the one
    that goes in first and the other after the fee. None where the pool does not trade."""
    (a, b), gamma, (r0, r1) = pool
    v0, v1 = prices[a] * r0, prices[b] * r1
    if gamma * v1 > v0:
        return a, b, v0, gamma * v1
    if gamma * v0 > v1:
        return b, a, v1, gamma * v0
    return None


def bound(pools, given, prices):
    total = sum(prices[token] * n for token, n in given.items())
    for pool in pools:
        if trade := sides(pool, prices):
            total += (math.sqrt(trade[3]) - math.sqrt(trade[2])) ** 2 / pool[1]
    return total


def leftovers(pools, given, prices):
    """What the best trades leave over of each token, at its price; and the edges of the pools that trade."""
    left = dict.fromkeys(prices, 0.0)
    for token, n in given.items():
        left[token] += prices[token] * n
    edges = []
    for pool in pools:
        if trade := sides(pool, prices):
            a, b, low, high = trade
            mean = math.sqrt(low * high)
            left[a] -= (mean - low) / pool[1]
            left[b] += (high - mean) / pool[1]
            edges.append((a, b, mean / (2 * pool[1])))
    return left, edges


def solved(matrix, right):
    """The solution of a symmetric positive system, by elimination."""
    n = len(right)
    rows = [row + [x] for row, x in zip(matrix, right)]
    for i in range(n):
        pivot = rows[i]
        for j in range(i + 1, n):
            if factor := rows[j][i] / pivot[i]:
                rows[j][i:] = [x - factor * y for x, y in zip(rows[j][i:], pivot[i:])]
    found = [0.0] * n
    for i in reversed(range(n)):
        row = rows[i]
        found[i] = (row[n] - sum(row[j] * found[j] for j in range(i + 1, n))) / row[i]
    return found


def newton(pools, given, t, prices):
    """The prices after one step of Newton's method, as far as it lowers the bound."""
    left, edges = leftovers(pools, given, prices)
    free = [token for token in prices if token != t]
    place = {token: i for i, token in enumerate(free)}
    matrix = [[0.0] * len(free) for _ in free]
    for a, b, weight in edges:
        for one, other in ((a, b), (b, a)):
            if one != t:
                matrix[place[one]][place[one]] += weight
                if other != t:
                    matrix[place[one]][place[other]] -= weight
    ridge = 1e-13 * max((row[i] for i, row in enumerate(matrix)), default=1.0) + 1e-300
    for i in range(len(free)):
        matrix[i][i] += ridge
    step = solved(matrix, [-left[token] for token in free])
    now, scale = bound(pools, given, prices), 1.0
    while scale > 1e-4:
        after = {token: price * math.exp(max(-1.0, min(1.0, scale * step[place[token]]))) if token != t else price for token, price in prices.items()}
        if bound(pools, given, after) < now:
            return after
        scale /= 2
    return prices


def in_turn(pools, given, t, prices):
    """Each price but that of t brought to where nothing of its token is left over, while the others stay."""
    prices = dict(prices)
    near = {token: [pool for pool in pools if token in pool[0]] for token in prices}

    def left(token, price):
        return leftovers(near[token], given, prices | {token: price})[0][token]

    for token in prices:
        if token == t or not near[token]:
            continue
        low = high = prices[token]
        step = 1.0001
        while low > 1e-18 and left(token, low) > 0:
            low, step = low / step, step * step
        step = 1.0001
        while high < 1e18 and left(token, high) < 0:
            high, step = high * step, step * step
        for _ in range(30):
            middle = math.sqrt(low * high)
            low, high = (low, middle) if left(token, middle) > 0 else (middle, high)
        prices[token] = math.sqrt(low * high)
    return prices


def least_bound(pools, given, t, prices):
    """The least bound that is found from these prices on, in units of t."""
    prices = {token: price / prices[t] for token, price in prices.items()}
    now = bound(pools, given, prices)
    for _ in range(30):
        before = now
        prices = in_turn(pools, given, t, prices)
        for _ in range(8):
            prices = newton(pools, given, t, prices)
        now = min(now, bound(pools, given, prices))
        if now > before * (1 - 1e-10):
            break
    return now
