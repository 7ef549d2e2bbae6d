"""The rules of balances, pairs and the router once more, in unbounded whole numbers and with no
thought of speed, by docs/LEDGER.md.
"""
from math import isqrt

from forms import AMOUNT, RESERVE, is_pool, is_token, parts, pool_of, refuse_if


def amount_out(fee, x, rin, rout):
    g = 1000 - fee
    return g * x * rout // (1000 * rin + g * x)


def amount_in(fee, y, rin, rout):
    return 1000 * rin * y // ((1000 - fee) * (rout - y)) + 1


class Pair:
    def __init__(self):
        self.r0 = self.r1 = self.last = self.acc0 = self.acc1 = self.k_last = 0
        self.locked = False


class Ledger:
    def __init__(self):
        self.bal, self.tokens, self.pairs = {}, [], {}
        self.fee_to, self.setter, self.time = "0", "admin", 0

    # ---- balances

    def balance(self, asset, holder):
        return self.bal.get((asset, holder), 0)

    def total(self, asset):
        return sum(n for (a, _), n in self.bal.items() if a == asset)

    def put(self, asset, holder, n):
        self.bal[asset, holder] = self.balance(asset, holder) + n

    def move(self, asset, sender, receiver, n):
        refuse_if(self.balance(asset, sender) < n, "FUNDS")
        if sender != receiver:
            self.put(asset, sender, -n)
            self.put(asset, receiver, n)

    def known(self, asset):
        refuse_if(is_token(asset) and asset not in self.tokens, "UNKNOWN_TOKEN")
        refuse_if(is_pool(asset) and asset not in self.pairs, "NO_PAIR")

    # ---- pairs

    def held(self, pool):
        token0, token1, _ = parts(pool)
        return self.balance(token0, pool), self.balance(token1, pool)

    def free(self, pool):
        refuse_if(pool not in self.pairs, "NO_PAIR")
        refuse_if(self.pairs[pool].locked, "LOCKED")
        return self.pairs[pool]

    def update(self, pool):
        pair, (b0, b1) = self.pairs[pool], self.held(pool)
        refuse_if(b0 > RESERVE or b1 > RESERVE, "OVERFLOW")
        elapsed = (self.time - pair.last) % 2**32
        if pair.r0 and pair.r1:
            pair.acc0 = (pair.acc0 + pair.r1 * 2**48 // pair.r0 * elapsed) % 2**128
            pair.acc1 = (pair.acc1 + pair.r0 * 2**48 // pair.r1 * elapsed) % 2**128
        pair.r0, pair.r1, pair.last = b0, b1, self.time % 2**32

    def take_fee(self, pool):
        pair, shares = self.pairs[pool], 0
        if self.fee_to == "0":
            pair.k_last = 0
        elif pair.k_last:
            root_now, root_last = isqrt(pair.r0 * pair.r1), isqrt(pair.k_last)
            if root_now > root_last:
                shares = self.total(pool) * (root_now - root_last) // (5 * root_now + root_last)
                self.put(pool, self.fee_to, shares)
        return shares

    def keep_product(self, pool):
        if self.fee_to != "0":
            self.pairs[pool].k_last = self.pairs[pool].r0 * self.pairs[pool].r1

    def mint(self, pool, to):
        pair, (b0, b1) = self.free(pool), self.held(pool)
        a0, a1 = b0 - pair.r0, b1 - pair.r1
        fee = self.take_fee(pool)
        supply = self.total(pool)
        n = isqrt(a0 * a1) - 1000 if supply == 0 else min(a0 * supply // pair.r0, a1 * supply // pair.r1)
        refuse_if(n <= 0, "INSUFFICIENT_LIQUIDITY_MINTED")
        self.put(pool, to, n)
        if supply == 0:
            self.put(pool, "0", 1000)
        self.update(pool)
        self.keep_product(pool)
        return [n, fee]

    def burn(self, pool, to):
        self.free(pool)
        shares, (b0, b1) = self.balance(pool, pool), self.held(pool)
        fee = self.take_fee(pool)
        supply = self.total(pool)
        refuse_if(supply == 0, "INSUFFICIENT_LIQUIDITY_BURNED")
        m0, m1 = shares * b0 // supply, shares * b1 // supply
        refuse_if(m0 == 0 or m1 == 0, "INSUFFICIENT_LIQUIDITY_BURNED")
        token0, token1, _ = parts(pool)
        self.put(pool, pool, -shares)
        self.move(token0, pool, to, m0)
        self.move(token1, pool, to, m1)
        self.update(pool)
        self.keep_product(pool)
        return [m0, m1, fee]

    def lend(self, pool, out0, out1, to):
        pair = self.free(pool)
        refuse_if(out0 == 0 and out1 == 0, "INSUFFICIENT_OUTPUT_AMOUNT")
        refuse_if(out0 >= pair.r0 or out1 >= pair.r1, "INSUFFICIENT_LIQUIDITY")
        token0, token1, _ = parts(pool)
        refuse_if(to in (token0, token1), "INVALID_TO")
        pair.locked = True
        self.move(token0, pool, to, out0)
        self.move(token1, pool, to, out1)

    def give_back(self, pool, out0, out1):
        pair, (b0, b1), fee = self.pairs[pool], self.held(pool), parts(pool)[2]
        in0, in1 = max(0, b0 - (pair.r0 - out0)), max(0, b1 - (pair.r1 - out1))
        refuse_if(in0 == 0 and in1 == 0, "INSUFFICIENT_INPUT_AMOUNT")
        refuse_if((1000 * b0 - fee * in0) * (1000 * b1 - fee * in1) < 10**6 * pair.r0 * pair.r1, "K")
        self.update(pool)
        pair.locked = False
        return [in0, in1, out0, out1]

    def swap(self, pool, out0, out1, to):
        self.lend(pool, out0, out1, to)
        return self.give_back(pool, out0, out1)

    # ---- the router

    def side(self, a, b, fee):
        pool = pool_of(a, b, fee)
        refuse_if(pool not in self.pairs, "NO_PAIR")
        pair = self.pairs[pool]
        return (pool, pair.r0, pair.r1) if a < b else (pool, pair.r1, pair.r0)

    def amounts_out(self, path, x):
        tokens, fees = path
        amounts = [x]
        for a, b, fee in zip(tokens, tokens[1:], fees):
            _, rin, rout = self.side(a, b, fee)
            refuse_if(amounts[-1] == 0, "INSUFFICIENT_INPUT_AMOUNT")
            refuse_if(rin == 0 or rout == 0, "INSUFFICIENT_LIQUIDITY")
            amounts.append(amount_out(fee, amounts[-1], rin, rout))
        return amounts

    def amounts_in(self, path, y):
        tokens, fees = path
        amounts = [y]
        for a, b, fee in reversed(list(zip(tokens, tokens[1:], fees))):
            _, rin, rout = self.side(a, b, fee)
            refuse_if(amounts[0] == 0, "INSUFFICIENT_OUTPUT_AMOUNT")
            refuse_if(rin == 0 or rout == 0 or amounts[0] >= rout, "INSUFFICIENT_LIQUIDITY")
            amounts.insert(0, amount_in(fee, amounts[0], rin, rout))
        refuse_if(amounts[0] > AMOUNT, "AMOUNT_LIMIT")
        return amounts

    def hops(self, actor, path, amounts, to):
        tokens, fees = path
        pools = [pool_of(a, b, fee) for a, b, fee in zip(tokens, tokens[1:], fees)]
        self.move(tokens[0], actor, pools[0], amounts[0])
        for i, pool in enumerate(pools):
            out = (0, amounts[i + 1]) if tokens[i] == parts(pool)[0] else (amounts[i + 1], 0)
            self.swap(pool, *out, pools[i + 1] if i + 1 < len(pools) else to)

    def add(self, actor, a, b, a_desired, b_desired, a_min, b_min, to, fee):
        if a == b or pool_of(a, b, fee) not in self.pairs:
            self.create(a, b, fee)
        pool, ra, rb = self.side(a, b, fee)
        if ra == 0 and rb == 0:
            amounts = a_desired, b_desired
        else:
            refuse_if(a_desired == 0, "INSUFFICIENT_AMOUNT")
            refuse_if(ra == 0 or rb == 0, "INSUFFICIENT_LIQUIDITY")
            best_b = a_desired * rb // ra
            if best_b <= b_desired:
                refuse_if(best_b < b_min, "INSUFFICIENT_B_AMOUNT")
                amounts = a_desired, best_b
            else:
                refuse_if(b_desired == 0, "INSUFFICIENT_AMOUNT")
                best_a = b_desired * ra // rb
                refuse_if(best_a < a_min, "INSUFFICIENT_A_AMOUNT")
                amounts = best_a, b_desired
        self.move(a, actor, pool, amounts[0])
        self.move(b, actor, pool, amounts[1])
        return [*amounts, self.mint(pool, to)[0]]

    def remove(self, actor, a, b, shares, a_min, b_min, to, fee):
        pool, _, _ = self.side(a, b, fee)
        self.move(pool, actor, pool, shares)
        m0, m1, _ = self.burn(pool, to)
        paid_a, paid_b = (m0, m1) if a < b else (m1, m0)
        refuse_if(paid_a < a_min, "INSUFFICIENT_A_AMOUNT")
        refuse_if(paid_b < b_min, "INSUFFICIENT_B_AMOUNT")
        return [paid_a, paid_b]

    def create(self, a, b, fee):
        pool = pool_of(a, b, fee)
        refuse_if(a not in self.tokens or b not in self.tokens, "UNKNOWN_TOKEN")
        refuse_if(pool in self.pairs, "PAIR_EXISTS")
        refuse_if(len(self.pairs) >= 256, "PAIR_LIMIT")
        self.pairs[pool] = Pair()
        return [pool]
