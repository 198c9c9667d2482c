# SPDX-License-Identifier: Apache-2.0
"""ITU-T G.726 sub-block by sub-block, with the widths of the Recommendation.

Every name is a sub-block's or a signal's name in section 4 of G.726 (12/90) and, for uniform PCM, in its Annex A (11/94). Each number is an
unsigned field of the width that the Recommendation gives it, and each result is masked as it says. TC is two's complement, SM is sign and
magnitude, FL is the floating format of 11 bits (sign, 4 bits of exponent, 6 of mantissa). Nothing is shortened here, as it is in the
definition of the crate `adpcm_kernel`.
"""

from __future__ import annotations

BITS = {16: 2, 24: 3, 32: 4, 40: 5}

# QUAN: the least DLN of each magnitude of I above the first, as signed numbers; and the I of a positive D below the first of them
LEVELS = {
    40: (-122, -16, 68, 139, 198, 250, 298, 339, 378, 413, 445, 475, 502, 528, 553),
    32: (-124, 80, 178, 246, 300, 349, 400),
    24: (8, 218, 331),
    16: (261,),
}

# RECONST, FUNCTW and FUNCTF by the magnitude of I
DQLN = {
    40: (2048, 4030, 28, 104, 169, 224, 274, 318, 358, 395, 429, 459, 488, 514, 539, 566),
    32: (2048, 4, 135, 213, 273, 323, 373, 425),
    24: (2048, 135, 273, 373),
    16: (116, 365),
}
WI = {
    40: (14, 14, 24, 39, 40, 41, 58, 100, 141, 179, 219, 280, 358, 440, 529, 696),
    32: (4084, 18, 41, 64, 112, 198, 355, 1122),
    24: (4092, 30, 137, 582),
    16: (4074, 439),
}
FI = {
    40: (0, 0, 0, 0, 0, 1, 1, 1, 1, 1, 2, 3, 4, 5, 6, 6),
    32: (0, 0, 0, 1, 1, 1, 3, 7),
    24: (0, 1, 2, 7),
    16: (0, 7),
}


def magnitude_of(rate: int, i: int) -> int:
    """The place of I in the tables: I, or its one's complement where its sign bit is set."""
    bits = BITS[rate]
    return (~i) & (2 ** (bits - 1) - 1) if i >> (bits - 1) else i


def exponent(mag: int) -> int:
    """How many bits a magnitude has."""
    return mag.bit_length()


# ---- the difference signal and the quantizer

def SUBTA(sl: int, se: int) -> int:
    """The difference of a sample and its estimate."""
    sli = sl + 49152 if sl >> 13 else sl          # SL has 14 bits, TC
    sei = se + 32768 if se >> 14 else se
    return (sli + 65536 - sei) & 65535


def LOG(d: int) -> tuple[int, int]:
    """The logarithm of a difference, and its sign."""
    ds = d >> 15
    dqm = (65536 - d) & 32767 if ds else d
    exp = max(exponent(dqm) - 1, 0)
    mant = ((dqm << 7) >> exp) & 127
    return (exp << 7) + mant, ds


def SUBTB(dl: int, y: int) -> int:
    """The logarithm less the scale factor."""
    return (dl + 4096 - (y >> 2)) & 4095


def QUAN(rate: int, dln: int, ds: int) -> int:
    """The code of a normalized logarithm."""
    value = dln - 4096 if dln >> 11 else dln
    magnitude = sum(1 for level in LEVELS[rate] if level <= value)
    ones = 2 ** BITS[rate] - 1
    if ds:
        return ones - magnitude
    # at 16 kbit/s alone there is a code of all zeros
    return ones if magnitude == 0 and rate != 16 else magnitude


# ---- the inverse quantizer

def RECONST(rate: int, i: int) -> tuple[int, int]:
    """The normalized logarithm of a code, and its sign."""
    return DQLN[rate][magnitude_of(rate, i)], i >> (BITS[rate] - 1)


def ADDA(dqln: int, y: int) -> int:
    """The logarithm with the scale factor."""
    return (dqln + (y >> 2)) & 4095


def ANTILOG(dql: int, dqs: int) -> int:
    """The quantized difference of a logarithm, as sign and magnitude."""
    ds = dql >> 11
    dex = (dql >> 7) & 15
    dmn = dql & 127
    dqt = (1 << 7) + dmn
    dqmag = 0 if ds else (dqt << 7) >> (14 - dex)
    return (dqs << 15) + dqmag


# ---- the scale factor

def FUNCTW(rate: int, i: int) -> int:
    """What a code adds to the fast scale factor."""
    return WI[rate][magnitude_of(rate, i)]


def FILTD(wi: int, y: int) -> int:
    """The fast scale factor behind a code."""
    dif = ((wi << 5) + 131072 - y) & 131071        # WI has 12 bits, TC: 17 bits behind the shift
    difsx = (dif >> 5) + 4096 if dif >> 16 else dif >> 5
    return (y + difsx) & 8191


def LIMB(yut: int) -> int:
    """Its limits."""
    geul = ((yut + 11264) & 16383) >> 13
    gell = ((yut + 15840) & 16383) >> 13
    return 544 if gell else (5120 if not geul else yut)


def FILTE(yup: int, yl: int) -> int:
    """The slow scale factor."""
    dif = (yup + ((1048576 - yl) >> 6)) & 16383
    difsx = dif + 507904 if dif >> 13 else dif
    return (yl + difsx) & 524287


def MIX(al: int, yu: int, yl: int) -> int:
    """Both scale factors, by the speed control."""
    dif = (yu + 16384 - (yl >> 6)) & 16383
    difs = dif >> 13
    difm = (16384 - dif) & 8191 if difs else dif
    prodm = (difm * al) >> 6
    prod = (16384 - prodm) & 16383 if difs else prodm
    return ((yl >> 6) + prod) & 8191


# ---- the speed of adaptation

def FUNCTF(rate: int, i: int) -> int:
    """What a code says of the rate of change."""
    return FI[rate][magnitude_of(rate, i)]


def FILTA(fi: int, dms: int) -> int:
    """Its short-term mean."""
    dif = ((fi << 9) + 8192 - dms) & 8191
    difsx = (dif >> 5) + 3840 if dif >> 12 else dif >> 5
    return (difsx + dms) & 4095


def FILTB(fi: int, dml: int) -> int:
    """Its long-term mean."""
    dif = ((fi << 11) + 32768 - dml) & 32767
    difsx = (dif >> 7) + 16128 if dif >> 14 else dif >> 7
    return (difsx + dml) & 16383


def SUBTC(dmsp: int, dmlp: int, tdp: int, y: int) -> int:
    """Whether the signal changes."""
    dif = ((dmsp << 2) + 32768 - dmlp) & 32767
    difm = (32768 - dif) & 16383 if dif >> 14 else dif
    dthr = dmlp >> 3
    return 0 if y >= 1536 and difm < dthr and tdp == 0 else 1


def FILTC(ax: int, ap: int) -> int:
    """The speed control behind a sample."""
    dif = ((ax << 9) + 2048 - ap) & 2047
    difsx = (dif >> 4) + 896 if dif >> 10 else dif >> 4
    return (difsx + ap) & 1023


def TRIGA(tr: int, app: int) -> int:
    """It is 1 behind a transition."""
    return 256 if tr else app


def LIMA(ap: int) -> int:
    """Its limit."""
    return 64 if ap >= 256 else ap >> 2


# ---- the predictor

def FLOATA(dq: int) -> int:
    """A difference as a float."""
    mag = dq & 32767
    exp = exponent(mag)
    mant = (mag << 6) >> exp if mag else 1 << 5
    return ((dq >> 15) << 10) + (exp << 6) + mant


def FLOATB(sr: int) -> int:
    """A reconstructed sample as a float."""
    srs = sr >> 15
    mag = (65536 - sr) & 32767 if srs else sr
    exp = exponent(mag)
    mant = (mag << 6) >> exp if mag else 1 << 5
    return (srs << 10) + (exp << 6) + mant


def FMULT(an: int, srn: int) -> int:
    """A coefficient times a float."""
    ans = an >> 15
    anmag = (16384 - (an >> 2)) & 8191 if ans else an >> 2
    anexp = exponent(anmag)
    anmant = (anmag << 6) >> anexp if anmag else 1 << 5
    wans = (srn >> 10) ^ ans
    wanexp = ((srn >> 6) & 15) + anexp
    wanmant = ((srn & 63) * anmant + 48) >> 4
    if wanexp <= 26:
        wanmag = (wanmant << 7) >> (26 - wanexp)
    else:
        wanmag = ((wanmant << 7) << (wanexp - 26)) & 32767
    return (65536 - wanmag) & 65535 if wans else wanmag


def ACCUM(wa: list[int], wb: list[int]) -> tuple[int, int]:
    """The estimates of the whole predictor and of its zeros."""
    sezi = 0
    for w in wb:
        sezi = (sezi + w) & 65535
    sei = (((sezi + wa[1]) & 65535) + wa[0]) & 65535
    return sei >> 1, sezi >> 1                      # SE, SEZ: 15 bits, TC


def signed_dq(dq: int) -> int:
    """A difference in two's complement."""
    return (65536 - (dq & 32767)) & 65535 if dq >> 15 else dq


def extended(se: int) -> int:
    """An estimate of 15 bits in 16."""
    return (1 << 15) + se if se >> 14 else se


def ADDB(dq: int, se: int) -> int:
    """The reconstructed sample."""
    return (signed_dq(dq) + extended(se)) & 65535


def ADDC(dq: int, sez: int) -> tuple[int, int]:
    """The sign of the difference with the estimate of the zeros, and whether it is 0."""
    dqsez = (signed_dq(dq) + extended(sez)) & 65535
    return dqsez >> 15, int(dqsez == 0)             # PK0, SIGPK


def XOR(dqn: int, dq: int) -> int:
    """Whether two signs differ."""
    return (dq >> 15) ^ (dqn >> 10)


def UPB(rate: int, un: int, bn: int, dq: int) -> int:
    """A coefficient of the zeros behind a sample."""
    ugb = 0 if dq & 32767 == 0 else (65408 if un else 128)
    if rate == 40:
        ulb = (65536 - ((bn >> 9) + 65408)) & 65535 if bn >> 15 else (65536 - (bn >> 9)) & 65535
    else:
        ulb = (65536 - ((bn >> 8) + 65280)) & 65535 if bn >> 15 else (65536 - (bn >> 8)) & 65535
    return (bn + ((ugb + ulb) & 65535)) & 65535


def UPA2(pk0: int, pk1: int, pk2: int, a2: int, a1: int, sigpk: int) -> int:
    """The second coefficient of the poles."""
    pks1, pks2 = pk0 ^ pk1, pk0 ^ pk2
    uga2a = 114688 if pks2 else 16384
    if a1 >> 15:
        fa1 = (a1 << 2) & 131071 if a1 >= 57345 else 24577 << 2
    else:
        fa1 = a1 << 2 if a1 <= 8191 else 8191 << 2
    fa = fa1 if pks1 else (131072 - fa1) & 131071
    uga2b = (uga2a + fa) & 131071
    uga2 = 0 if sigpk else ((uga2b >> 7) + 64512 if uga2b >> 16 else uga2b >> 7)
    ula2 = (65536 - ((a2 >> 7) + 65024)) & 65535 if a2 >> 15 else (65536 - (a2 >> 7)) & 65535
    return (a2 + ((uga2 + ula2) & 65535)) & 65535


def LIMC(a2t: int) -> int:
    """Its limits."""
    if 32768 <= a2t <= 53248:
        return 53248
    return 12288 if 12288 <= a2t <= 32767 else a2t


def UPA1(pk0: int, pk1: int, a1: int, sigpk: int) -> int:
    """The first coefficient of the poles."""
    pks = pk0 ^ pk1
    uga1 = 0 if sigpk else (65344 if pks else 192)
    ula1 = (65536 - ((a1 >> 8) + 65280)) & 65535 if a1 >> 15 else (65536 - (a1 >> 8)) & 65535
    return (a1 + ((uga1 + ula1) & 65535)) & 65535


def LIMD(a1t: int, a2p: int) -> int:
    """Its limits, by the second."""
    a1ul = (15360 + 65536 - a2p) & 65535
    a1ll = (a2p + 65536 - 15360) & 65535
    if 32768 <= a1t <= a1ll:
        return a1ll
    return a1ul if a1ul <= a1t <= 32767 else a1t


def TONE(a2p: int) -> int:
    """Whether the signal is a narrow band."""
    return int(32768 <= a2p < 53760)


def TRANS(td: int, yl: int, dq: int) -> int:
    """Whether there is a transition."""
    dqmag = dq & 32767
    ylint = yl >> 15
    ylfrac = (yl >> 10) & 31
    thr1 = (32 + ylfrac) << ylint
    thr2 = 31 << 10 if ylint > 9 else thr1
    dqthr = (thr2 + (thr2 >> 1)) >> 1
    return int(dqmag > dqthr and td == 1)


def LIMO(sr: int) -> int:
    """Annex A: the output of 14 bits, TC."""
    if sr >> 15:
        return sr - 49152 if sr >= 57344 else 8192  # -8192 as a field of 14 bits
    return min(sr, 8191)


class Coder:
    """What both the encoder and the decoder keep."""

    def __init__(self, rate: int):
        self.rate = rate
        self.reset()

    def reset(self) -> None:
        """Before the first sample."""
        self.a = [0, 0]
        self.b = [0] * 6
        self.sr = [32, 32]
        self.dq = [32] * 6
        self.pk = [0, 0]
        self.td = 0
        self.yu, self.yl = 544, 34816
        self.dms = self.dml = self.ap = 0

    def predict(self) -> None:
        """The estimates and the scale factor of the next sample."""
        wb = [FMULT(b, dq) for b, dq in zip(self.b, self.dq)]
        wa = [FMULT(a, sr) for a, sr in zip(self.a, self.sr)]
        self.se, self.sez = ACCUM(wa, wb)
        self.y = MIX(LIMA(self.ap), self.yu, self.yl)

    def update(self, i: int) -> int:
        """All behind the code I; gives SR."""
        rate = self.rate
        dqln, dqs = RECONST(rate, i)
        dq = ANTILOG(ADDA(dqln, self.y), dqs)
        sr = ADDB(dq, self.se)
        pk0, sigpk = ADDC(dq, self.sez)
        tr = TRANS(self.td, self.yl, dq)
        a2p = LIMC(UPA2(pk0, self.pk[0], self.pk[1], self.a[1], self.a[0], sigpk))
        a1p = LIMD(UPA1(pk0, self.pk[0], self.a[0], sigpk), a2p)
        bp = [UPB(rate, XOR(dqn, dq), b, dq) for b, dqn in zip(self.b, self.dq)]
        tdp = TONE(a2p)
        fi = FUNCTF(rate, i)
        dmsp, dmlp = FILTA(fi, self.dms), FILTB(fi, self.dml)
        app = FILTC(SUBTC(dmsp, dmlp, tdp, self.y), self.ap)
        yup = LIMB(FILTD(FUNCTW(rate, i), self.y))
        ylp = FILTE(yup, self.yl)
        # DELAY, TRIGA, TRIGB
        self.a = [0, 0] if tr else [a1p, a2p]
        self.b = [0] * 6 if tr else bp
        self.td = 0 if tr else tdp
        self.ap = TRIGA(tr, app)
        self.dms, self.dml = dmsp, dmlp
        self.yu, self.yl = yup, ylp
        self.pk = [pk0, self.pk[0]]
        self.sr = [FLOATB(sr), self.sr[0]]
        self.dq = [FLOATA(dq)] + self.dq[:5]
        return sr

    def encode(self, sl: int) -> int:
        """The code of a sample of 14 bits, a signed number."""
        self.predict()
        dl, ds = LOG(SUBTA(sl & 16383, self.se))
        i = QUAN(self.rate, SUBTB(dl, self.y), ds)
        self.update(i)
        return i

    def decode(self, i: int) -> int:
        """The sample of 14 bits of a code, a signed number."""
        self.predict()
        so = LIMO(self.update(i))
        return so - 16384 if so >> 13 else so
