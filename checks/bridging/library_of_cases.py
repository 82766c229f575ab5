"""A library of cells that aren't gates alone: C-elements, a clock gate, power pins, conditions."""

HEAD = """library (mine) { delay_model : table_lookup; time_unit : "1ns"; voltage_unit : "1V";
current_unit : "1mA"; capacitive_load_unit (1,pf); pulling_resistance_unit : "1kohm";
leakage_power_unit : "1nW"; nom_voltage : 1; nom_temperature : 25; nom_process : 1;
input_threshold_pct_rise : 50; input_threshold_pct_fall : 50; output_threshold_pct_rise : 50;
output_threshold_pct_fall : 50; slew_lower_threshold_pct_rise : 20;
slew_lower_threshold_pct_fall : 20; slew_upper_threshold_pct_rise : 80;
slew_upper_threshold_pct_fall : 80;
"""


def inputs(*names):
    """Input pins."""
    return " ".join(f"pin({it}) {{ direction : input; capacitance : 0.01; }}" for it in names)


def arc(pin, rise, fall, sense="positive_unate", more=""):
    """An arc from a pin, with delays in nanoseconds."""
    return (
        f'timing() {{ related_pin : "{pin}"; timing_sense : {sense}; {more} '
        f'cell_rise(scalar) {{ values("{rise}"); }} cell_fall(scalar) {{ values("{fall}"); }} '
        'rise_transition(scalar) { values("0.05"); } fall_transition(scalar) { values("0.05"); } }'
    )


def output(name, body):
    """An output pin."""
    return f"pin({name}) {{ direction : output; max_capacitance : 1; {body} }}"


BOTH = arc("A", 0.1, 0.12) + arc("B", 0.1, 0.12)


def when(pin, other, level, rise, fall, sense):
    """An arc under a condition on another pin."""
    name = other if level else f"!{other}"
    more = f'when : "{name}"; sdf_cond : "{other} == 1\'b{level}";'
    return arc(pin, rise, fall, sense, more)


XOR = "".join(
    [
        when("A", "B", 0, 0.1, 0.11, "positive_unate"),
        when("A", "B", 1, 0.3, 0.31, "negative_unate"),
        when("B", "A", 0, 0.1, 0.11, "positive_unate"),
        when("B", "A", 1, 0.14, 0.16, "negative_unate"),
    ]
)
CLOCKED = arc("CK", 0.2, 0.21, "non_unate", "timing_type : rising_edge;")
CELLS = {
    "C2F": inputs("A", "B") + output("Y", 'function : "(A B)+(A Y)+(B Y)"; ' + BOTH),
    "C2S": 'statetable("A B","Y") { table : "L L : - : L, H H : - : H, L H : - : N, H L : - : N"; }'
    + inputs("A", "B")
    + output("Y", 'internal_node : "Y"; ' + BOTH),
    "C2L": 'latch(IQ,IQN) { enable : "(A B)+(A\' B\')"; data_in : "A"; }'
    + inputs("A", "B")
    + output("Y", 'function : "IQ"; ' + BOTH),
    "DFF": 'ff(IQ,IQN) { next_state : "D"; clocked_on : "CK"; }'
    + inputs("D", "CK")
    + output("Q", 'function : "IQ"; ' + CLOCKED),
    "ICG": 'clock_gating_integrated_cell : "latch_posedge"; statetable("CK E","q") '
    '{ table : "L L : - : L, L H : - : H, H - : - : N"; } '
    'pin(q) { direction : internal; internal_node : "q"; }'
    + inputs("CK", "E")
    + output("GCK", 'state_function : "CK q"; ' + arc("CK", 0.1, 0.1)),
    "INVP": "pg_pin(VDD) { voltage_name : VDD; pg_type : primary_power; } "
    "pg_pin(VSS) { voltage_name : VSS; pg_type : primary_ground; }"
    + inputs("A")
    + output("Y", 'function : "A\'"; ' + arc("A", 0.1, 0.12, "negative_unate")),
    "ND2": inputs("A", "B")
    + output(
        "Y",
        'function : "(A B)\'"; '
        + arc("A", 0.05, 0.04, "negative_unate")
        + arc("B", 0.05, 0.04, "negative_unate"),
    ),
    "XORC": inputs("A", "B") + output("Y", 'function : "A^B"; ' + XOR),
}
TEXT = (
    HEAD + "".join(f"cell({name}) {{ area : 1; {body} }}\n" for name, body in CELLS.items()) + "}\n"
)
