"""What stands in for shaders that aren't there: by their names and kinds, with their parameters under other names."""
from __future__ import annotations

import re
from collections.abc import Collection, Mapping, Sequence
from dataclasses import dataclass
from pathlib import Path

from .changes import LEFT, NEAR, SAME

LIBRARY = Path(__file__).parent / "library"
STOCK: Mapping[str, tuple[str, Mapping[str, str]]] = {
    "constant": ("surface", {}),
    "matte": ("surface", {"Ka": "float", "Kd": "float"}),
    "metal": ("surface", {"Ka": "float", "Ks": "float", "roughness": "float"}),
    "shinymetal": ("surface", {"Ka": "float", "Ks": "float", "roughness": "float", "Kr": "float", "texturename": "string"}),
    "plastic": ("surface", {"Ka": "float", "Kd": "float", "Ks": "float", "roughness": "float", "specularcolor": "color"}),
    "ambientlight": ("light", {"intensity": "float", "lightcolor": "color"}),
    "distantlight": ("light", {"intensity": "float", "lightcolor": "color", "from": "point", "to": "point"}),
    "pointlight": ("light", {"intensity": "float", "lightcolor": "color", "from": "point"}),
    "spotlight": ("light", {"intensity": "float", "lightcolor": "color", "from": "point", "to": "point", "coneangle": "float",
                            "conedeltaangle": "float", "beamdistribution": "float"}),
    "depthcue": ("volume", {"mindistance": "float", "maxdistance": "float", "background": "color"}),
    "fog": ("volume", {"distance": "float", "background": "color"}),
    "bumpy": ("displacement", {"amplitude": "float", "texturename": "string"}),
}


@dataclass(frozen=True)
class StandIn:
    """Which names of which kind a shader stands in for, and what kind of change that is."""

    kind: str
    names: str
    shader: str
    change: str = LEFT


# The first that fits. What stands last of a kind takes every name.
TABLE: Sequence[StandIn] = (
    StandIn("surface", "defaultsurface", "defaultsurface", SAME),
    StandIn("surface", "paintedplastic", "paintedplastic", SAME),
    StandIn("surface", "null|shadow_?catcher", "constant", LEFT),
    StandIn("surface", "checker|.*check.*", "stand_in_checker"),
    StandIn("surface", "oak|.*wood.*|.*plank.*|.*pine.*", "stand_in_wood"),
    StandIn("surface", ".*marble.*|.*granite.*|.*stone.*", "stand_in_marble"),
    StandIn("surface", ".*brick.*|.*tile.*|.*pavement.*", "stand_in_tiles"),
    StandIn("surface", ".*(lambert|matte|diffuse|clay|chalk|rmmatte).*", "stand_in_material"),
    StandIn("surface", ".*(const|surfaceshader|emit|lightsource).*", "constant"),
    StandIn("surface", ".*glass.*|.*water.*|.*crystal.*", "stand_in_glass"),
    StandIn("surface", ".*mirror.*|.*chrome.*", "stand_in_mirror"),
    StandIn("surface", ".*metal.*|.*gold.*|.*copper.*|.*silver.*", "metal"),
    StandIn("surface", ".*", "stand_in_material"),
    StandIn("light", ".*(ambient|environ|env_?light|sky|dome|occl|indirect).*", "ambientlight"),
    StandIn("light", "shadow_?distant", "distantlight"),
    StandIn("light", "shadow_?(spot|point)", "spotlight"),
    StandIn("light", "uberlight|.*uber.*", "spotlight"),
    StandIn("light", ".*spot.*", "stand_in_spot"),
    StandIn("light", ".*(distant|direct|sun|parallel).*", "distantlight"),
    StandIn("light", ".*", "stand_in_lamp"),
    StandIn("displacement", ".*(dent|bump|crater|rough|stucco).*", "stand_in_dents"),
    StandIn("volume", ".*fog.*|.*mist.*|.*haze.*|.*smoke.*", "fog"),
)
# Names of parameters as renderers and exporters have them, in small letters without `_`, and those of the shaders that stand in.
OTHER_NAMES: Mapping[str, str] = {
    "diffusecoeff": "Kd", "diffuse": "Kd", "kdiffuse": "Kd", "diffusegain": "Kd", "diff": "Kd",
    "specularcoeff": "Ks", "specular": "Ks", "kspecular": "Ks", "speculargain": "Ks", "spec": "Ks",
    "ambient": "Ka", "ambientcoeff": "Ka", "eccentricity": "roughness", "specularroughness": "roughness", "rough": "roughness",
    "diffusecolor": "diffusecolor", "basecolor": "diffusecolor", "surfacecolor": "diffusecolor", "color": "diffusecolor", "cdiff": "diffusecolor",
    "basecolour": "diffusecolor", "kdcolor": "diffusecolor", "incolor": "diffusecolor", "specularcolor": "specularcolor",
    "speccolor": "specularcolor", "opac": "opacity", "opacity": "opacity", "freq": "frequency", "checkfreq": "frequency", "frequency": "frequency",
    "veinfreq": "frequency", "txtscale": "frequency", "darkcolor": "blackcolor", "blackcolor": "blackcolor", "ringscale": "ringscale",
    "veincolor": "veincolor", "lightwood": "lightwood", "darkwood": "darkwood", "mortarcolor": "jointcolor", "groutcolor": "jointcolor",
    "lightintensity": "intensity", "exposure": "", "lightcolor": "lightcolor", "colour": "lightcolor", "decay": "decay", "decayrate": "decay",
    "decayregion": "", "falloff": "decay", "coneangle": "coneangle", "penumbraangle": "conedeltaangle", "conedeltaangle": "conedeltaangle",
    "dropoff": "beamdistribution", "beamdistribution": "beamdistribution",
}


def stand_in(name: str, kind: str, lists: Sequence[str]) -> StandIn | None:
    """What stands in for a shader of a name and kind whose list has these parameters; None where nothing can."""
    small = name.lower()
    for it in TABLE:
        if it.kind == kind and re.fullmatch(it.names, small):
            if kind == "light" and it.names == ".*":
                return StandIn(kind, it.names, by_parameters(lists))
            return it
    return None


def by_parameters(lists: Sequence[str]) -> str:
    """The lamp that the names of parameters tell of."""
    if "coneangle" in lists:
        return "stand_in_spot"
    return "distantlight" if "to" in lists else "stand_in_lamp"


def parameter(name: str, taken: Collection[str]) -> str | None:
    """The parameter of a stand-in that has the sense of another shader's, or None."""
    if name in taken:
        return name
    other = OTHER_NAMES.get(name.lower().replace("_", ""))
    return other if other in taken else None


def text(shader: str) -> bytes | None:
    """The text of a stand-in, or None for a stock shader."""
    return None if shader in STOCK else (LIBRARY / f"{shader}.sl").read_bytes()


def nearness(change: str) -> str:
    """How a stand-in is told."""
    return {SAME: "the standard's own text in its place", NEAR: "one much like it in its place"}.get(change, "in its place")
