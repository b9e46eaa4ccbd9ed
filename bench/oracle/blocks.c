// The thirteen kinds, as the tables of docs/blocks.md say them.
#include "oracle.h"
#include <string.h>

// What the guards of a state read.
typedef struct {
  const bool *pin;
  bool edge, held, rise, elapsed;
  int mode;
} Conditions;

#define STATUS "Ready", "Error"

const Kind kinds[KINDS + 1] = {
  { .name = "" },
  { "SF_Equivalent",
    "DiscrepancyTime",
    { "Activate*", "S_ChannelA", "S_ChannelB" },
    { "S_EquivalentOut", STATUS },
    0x8001 },
  { "SF_Antivalent",
    "DiscrepancyTime",
    { "Activate*", "S_ChannelNC", "S_ChannelNO" },
    { "S_AntivalentOut", STATUS },
    0x8001 },
  { "SF_EmergencyStop",
    NULL,
    { "Activate*", "S_EStopIn", "S_StartReset", "S_AutoReset", "Reset*" },
    { "S_EStopOut", STATUS },
    0x8001 },
  { "SF_ESPE",
    NULL,
    { "Activate*", "S_ESPE_In", "S_StartReset", "S_AutoReset", "Reset*" },
    { "S_ESPE_Out", STATUS },
    0x8001 },
  { "SF_ModeSelector",
    "ModeMonitorTime",
    { "Activate*", "S_Mode0", "S_Mode1", "S_Mode2", "S_Mode3", "S_Mode4", "S_Mode5", "S_Mode6", "S_Mode7", "S_Unlock",
      "S_SetMode", "AutoSetMode*", "Reset*" },
    { "S_Mode0Sel", "S_Mode1Sel", "S_Mode2Sel", "S_Mode3Sel", "S_Mode4Sel", "S_Mode5Sel", "S_Mode6Sel", "S_Mode7Sel",
      "S_AnyModeSel", STATUS },
    0x8005 },
  { "SF_TwoHandControlTypeII", NULL, { "Activate*", "S_Button1", "S_Button2" }, { "S_TwoHandOut", STATUS }, 0x8001 },
  { "SF_TwoHandControlTypeIII", NULL, { "Activate*", "S_Button1", "S_Button2" }, { "S_TwoHandOut", STATUS }, 0x8001 },
  { "SF_GuardMonitoring",
    "DiscrepancyTime",
    { "Activate*", "S_GuardSwitch1", "S_GuardSwitch2", "S_StartReset", "S_AutoReset", "Reset*" },
    { "S_GuardMonitoring", STATUS },
    0x8001 },
  { "SF_GuardLocking",
    NULL,
    { "Activate*", "S_GuardMonitoring", "S_SafetyActive", "S_GuardLock", "UnlockRequest*", "S_StartReset",
      "S_AutoReset", "Reset*" },
    { "S_GuardLocked", "S_UnlockGuard", STATUS },
    0x8001 },
  { "SF_EnableSwitch",
    NULL,
    { "Activate*", "S_SafetyActive", "S_EnableSwitchCh1", "S_EnableSwitchCh2", "S_AutoReset", "Reset*" },
    { "S_EnableSwitchOut", STATUS },
    0x8004 },
  { "SF_SafetyRequest",
    "MonitoringTime",
    { "Activate*", "S_OpMode", "S_Acknowledge", "Reset*" },
    { "S_SafetyActive", "S_SafetyRequest", STATUS },
    0x8001 },
  { "SF_OutControl",
    NULL,
    { "Activate*", "S_SafeControl", "ProcessControl*", "StaticControl*", "S_StartReset", "S_AutoReset", "Reset*" },
    { "S_OutControl", STATUS },
    0x8001 },
  { "SF_EDM",
    "MonitoringTime",
    { "Activate*", "S_OutControl", "S_EDM1", "S_EDM2", "S_StartReset", "Reset*" },
    { "S_EDM_Out", STATUS },
    0x8001 },
};

// The states of each kind beside Idle.
static const int states[KINDS + 1][24] = {
  { 0 },
  { 0x8000, 0x8001, 0x8004, 0x8005, 0x8014, 0xC001, 0xC002, 0xC003 },
  { 0x8000, 0x8001, 0x8004, 0x8005, 0x8014, 0xC001, 0xC002, 0xC003 },
  { 0x8000, 0x8001, 0x8002, 0x8003, 0x8004, 0x8005, 0xC001, 0xC002 },
  { 0x8000, 0x8001, 0x8002, 0x8003, 0x8004, 0x8005, 0xC001, 0xC002 },
  { 0x8000, 0x8004, 0x8005, 0xC001, 0xC002, 0xC003, 0xC004 },
  { 0x8000, 0x8001, 0x8004, 0x8005, 0x8006, 0x8007, 0x8008, 0x8009, 0x8019, 0xC001, 0xC002, 0xC003 },
  { 0x8000, 0x8001, 0x8004, 0x8005, 0x8006, 0x8007, 0x8008, 0x8009, 0x8019, 0xC001, 0xC002, 0xC003, 0xC004, 0xC005,
    0xC006 },
  { 0x8000, 0x8001, 0x8002, 0x8003, 0x8004, 0x8005, 0x8012, 0x8014, 0xC001, 0xC011, 0xC012 },
  { 0x8000, 0x8001, 0x8003, 0x8011, 0x8012, 0x8013, 0x8014, 0xC001, 0xC002, 0xC003, 0xC004 },
  { 0x8000, 0x8004, 0x8005, 0x8006, 0x8007, 0xC001, 0xC002, 0xC010, 0xC020, 0xC030, 0xC040 },
  { 0x8000, 0x8001, 0x8002, 0x8003, 0x8005, 0x8012, 0xC002, 0xC003, 0xC004, 0xC005 },
  { 0x8000, 0x8001, 0x8002, 0x8003, 0x8010, 0xC001, 0xC002, 0xC010 },
  { 0x8000, 0x8001, 0x8010, 0xC001, 0xC010, 0xC011, 0xC020, 0xC021, 0xC030, 0xC031, 0xC040,
    0xC041, 0xC050, 0xC051, 0xC060, 0xC061, 0xC070, 0xC071, 0xC080, 0xC081, 0xC090, 0xC091 },
};

enum { MODE_SELECTOR = 5, OUT_CONTROL = 12, SET_MODE_PIN = 10, PROCESS_PIN = 2 };

int pin_count(int kind) {
  int count = 0;
  while (count < MOST_PINS && kinds[kind].pins[count]) count++;
  return count;
}

int output_count(int kind) {
  int count = 0;
  while (count < MOST_OUTPUTS && kinds[kind].outputs[count]) count++;
  return count;
}

bool is_safe_pin(int kind, int pin) { return !strchr(kinds[kind].pins[pin], '*'); }

bool free_value(int kind, int pin) { return strcmp(kinds[kind].pins[pin], "S_ChannelNO") == 0; }

static bool has_reset(int kind) { return strcmp(kinds[kind].pins[pin_count(kind) - 1], "Reset*") == 0; }

static bool auxiliary_of(int kind, const bool *pins) {
  return kind == MODE_SELECTOR ? pins[SET_MODE_PIN] : kind == OUT_CONTROL && pins[PROCESS_PIN];
}

static int two_channels(int state, bool a, bool b, bool elapsed) {
  switch (state) {
    case 0x8001: return a && b ? 0x8000 : a ? 0x8004 : b ? 0x8014 : state;
    case 0x8004: return elapsed ? 0xC001 : !a ? 0x8001 : b ? 0x8000 : state;
    case 0x8014: return elapsed ? 0xC002 : !b ? 0x8001 : a ? 0x8000 : state;
    case 0x8000: return !a && !b ? 0x8001 : !(a && b) ? 0x8005 : state;
    case 0x8005: return elapsed ? 0xC003 : !a && !b ? 0x8001 : state;
    default: return !a && !b ? 0x8001 : state;
  }
}

static int stop(int state, const Conditions *on) {
  bool in = on->pin[1], start = on->pin[2], automatic = on->pin[3], reset = on->pin[4];
  switch (state) {
    case 0x8001: return !start ? 0x8002 : in ? 0x8000 : state;
    case 0x8002: return reset ? 0xC001 : in ? 0x8003 : state;
    case 0x8003: return !in ? 0x8002 : on->edge ? 0x8000 : state;
    case 0x8000: return !in ? 0x8004 : state;
    case 0x8004: return reset ? 0xC002 : in ? 0x8005 : state;
    case 0x8005: return !in ? 0x8004 : automatic || on->edge ? 0x8000 : state;
    case 0xC001: return !reset ? 0x8002 : state;
    default: return !reset ? 0x8004 : state;
  }
}

static int modes_on(const bool *pin) {
  int count = 0;
  for (int k = 1; k <= 8; k++) count += pin[k];
  return count;
}

static int mode_selector(int state, const Conditions *on) {
  int count = modes_on(on->pin);
  bool unlock = on->pin[9], automatic = on->pin[11], exact = count == 1 && on->pin[1 + on->mode], reset = on->pin[12];
  switch (state) {
    case 0x8005:
      return count >= 2                              ? 0xC001
             : count == 0 && on->elapsed             ? 0xC002
             : count == 1 && (automatic || on->rise) ? 0x8000
                                                     : state;
    case 0x8000: return !exact ? 0x8005 : !unlock ? 0x8004 : state;
    case 0x8004: return unlock && !exact ? 0x8005 : unlock ? 0x8000 : state;
    case 0xC001: return on->edge ? 0x8005 : on->held ? 0xC003 : state;
    case 0xC002: return on->edge ? 0x8005 : on->held ? 0xC004 : state;
    case 0xC003: return !reset ? 0xC001 : state;
    default: return !reset ? 0xC002 : state;
  }
}

static int two_hands(int state, const Conditions *on, bool is_third) {
  bool one = on->pin[1], two = on->pin[2], late = is_third && on->elapsed, none = !one && !two;
  if ((state == 0x8005 || state == 0x8006) && late && !none) return one && two ? 0xC006 : one ? 0xC004 : 0xC005;
  switch (state) {
    case 0x8001: return one && two ? 0xC003 : one ? 0xC001 : two ? 0xC002 : 0x8004;
    case 0xC001:
    case 0xC002:
    case 0xC003: return none ? 0x8001 : state;
    case 0x8004: return one && two ? 0x8000 : one ? 0x8005 : two ? 0x8006 : state;
    case 0x8005: return one && two ? 0x8000 : none ? 0x8004 : !one ? 0x8019 : state;
    case 0x8006: return one && two ? 0x8000 : none ? 0x8004 : !two ? 0x8019 : state;
    case 0x8000: return none ? 0x8004 : !one ? 0x8008 : !two ? 0x8007 : state;
    case 0x8007: return none ? 0x8004 : two ? 0x8009 : state;
    case 0x8008: return none ? 0x8004 : one ? 0x8009 : state;
    default: return none ? 0x8004 : state;
  }
}

static int guard_monitoring(int state, const Conditions *on) {
  bool one = on->pin[1], two = on->pin[2], start = on->pin[3], automatic = on->pin[4], reset = on->pin[5];
  bool both = one && two, none = !one && !two;
  switch (state) {
    case 0x8001: return both && start ? 0x8000 : both ? 0x8003 : 0x8002;
    case 0x8002: return none ? 0x8012 : state;
    case 0x8012: return both ? 0x8005 : one ? 0x8004 : two ? 0x8014 : state;
    case 0x8004: return on->elapsed ? 0xC011 : both ? 0x8005 : none ? 0x8012 : !one ? 0x8002 : state;
    case 0x8014: return on->elapsed ? 0xC012 : both ? 0x8005 : none ? 0x8012 : !two ? 0x8002 : state;
    case 0x8005: return !both ? 0x8002 : automatic ? 0x8000 : 0x8003;
    case 0x8003: return !both ? 0x8002 : on->edge ? 0x8000 : on->held ? 0xC001 : state;
    case 0x8000: return !both ? 0x8002 : state;
    case 0xC001: return !reset ? 0x8003 : state;
    default: return none ? 0x8012 : state;
  }
}

static int guard_locking(int state, const Conditions *on) {
  bool guard = on->pin[1], safe = on->pin[2], lock = on->pin[3], unlock = on->pin[4], start = on->pin[5];
  bool automatic = on->pin[6], reset = on->pin[7], closed = guard && lock, opens = unlock && safe;
  switch (state) {
    case 0x8001: return closed && start ? 0x8000 : closed ? 0x8003 : 0x8014;
    case 0x8000: return !closed ? 0xC004 : opens ? 0x8013 : state;
    case 0x8003: return !closed ? 0xC004 : opens ? 0x8013 : on->edge ? 0x8000 : on->held ? 0xC002 : state;
    case 0x8013: return !safe ? 0x8014 : !guard ? 0x8012 : !unlock ? 0x8011 : state;
    case 0x8012: return !safe ? 0x8014 : guard ? 0x8013 : state;
    case 0x8011:
      return !guard ? 0x8014 : opens ? 0x8013 : lock && (automatic || on->edge) ? 0x8000 : on->held ? 0xC003 : state;
    case 0x8014:
      return closed                      ? 0x8003
             : safe && on->edge && guard ? 0x8013
             : safe && on->edge          ? 0x8012
             : on->held                  ? 0xC001
                                         : state;
    case 0xC001: return !reset ? 0x8014 : state;
    case 0xC002: return !reset ? 0x8003 : state;
    case 0xC003: return !reset ? 0x8011 : state;
    default: return on->edge ? 0x8014 : state;
  }
}

static int enable_switch(int state, const Conditions *on) {
  bool safe = on->pin[1], one = on->pin[2], two = on->pin[3], automatic = on->pin[4], reset = on->pin[5];
  bool released = !one && two, middle = one && two, pressed = !two, goes_on = automatic || on->edge;
  if (state == 0x8004) return safe ? 0x8005 : state;
  if (!safe) return 0x8004;
  switch (state) {
    case 0x8005: return released ? 0x8006 : 0xC010;
    case 0x8006: return middle ? 0x8000 : pressed ? 0x8007 : state;
    case 0x8000: return released ? 0x8006 : pressed ? 0x8007 : state;
    case 0x8007: return released ? 0x8006 : middle ? 0xC030 : state;
    case 0xC010: return released ? 0xC020 : state;
    case 0xC020: return !released ? 0xC010 : on->held ? 0xC001 : goes_on ? 0x8006 : state;
    case 0xC030: return !middle ? 0xC040 : state;
    case 0xC040: return middle ? 0xC030 : on->held ? 0xC002 : goes_on && released ? 0x8006 : goes_on ? 0x8007 : state;
    case 0xC001: return !reset ? 0xC020 : state;
    default: return !reset ? 0xC040 : state;
  }
}

static int safety_request(int state, const Conditions *on) {
  bool operation = on->pin[1], acknowledged = on->pin[2], reset = on->pin[3];
  switch (state) {
    case 0x8001: return operation ? 0x8012 : 0x8003;
    case 0x8012: return !operation ? 0x8003 : on->edge ? 0x8002 : state;
    case 0x8002: return !operation ? 0x8003 : state;
    case 0x8003: return operation ? 0x8012 : acknowledged ? 0x8000 : on->elapsed ? 0xC003 : state;
    case 0x8000: return !acknowledged ? 0xC002 : operation ? 0x8002 : state;
    case 0xC002: return on->edge ? 0x8005 : on->held ? 0xC004 : state;
    case 0xC003: return on->edge ? 0x8005 : on->held ? 0xC005 : state;
    case 0xC004: return !reset ? 0xC002 : state;
    case 0xC005: return !reset ? 0xC003 : state;
    default: return operation ? 0x8012 : state;
  }
}

static int out_control(int state, const Conditions *on) {
  bool safe = on->pin[1], process = on->pin[2], fixed = on->pin[3], start = on->pin[4], automatic = on->pin[5];
  bool reset = on->pin[6];
  switch (state) {
    case 0x8001: return !safe ? 0x8002 : start || on->edge ? 0x8010 : on->held ? 0xC001 : state;
    case 0x8002: return safe && automatic ? 0x8010 : safe ? 0x8003 : state;
    case 0x8003: return !safe ? 0x8002 : on->edge ? 0x8010 : on->held ? 0xC002 : state;
    case 0x8010: return !safe ? 0x8002 : process && (fixed || on->rise) ? 0x8000 : process ? 0xC010 : state;
    case 0x8000: return !safe ? 0x8002 : !process ? 0x8010 : state;
    case 0xC010: return !safe ? 0x8002 : !process ? 0x8010 : state;
    case 0xC001: return !reset ? 0x8001 : state;
    default: return !reset ? 0x8003 : state;
  }
}

static int device_monitoring(int state, const Conditions *on) {
  bool out = on->pin[1], one = on->pin[2], two = on->pin[3], start = on->pin[4], reset = on->pin[5];
  if (state == 0x8001) return start || on->edge ? 0x8010 : on->held ? 0xC001 : state;
  if (state == 0xC001) return !reset ? 0x8001 : state;
  if (state == 0x8010) {
    if (out) return one && two ? 0x8000 : two ? 0xC040 : one ? 0xC050 : 0xC060;
    if (on->elapsed && !(one && two)) return two ? 0xC010 : one ? 0xC020 : 0xC030;
    return state;
  }
  if (state == 0x8000) {
    if (!out) return 0x8010;
    if (on->elapsed && (one || two)) return one && two ? 0xC090 : one ? 0xC070 : 0xC080;
    return state;
  }
  if (state % 2 == 0) return on->edge ? 0x8010 : on->held ? state + 1 : state;
  return !reset ? state - 1 : state;
}

static int next_state(int kind, int state, const Conditions *on) {
  switch (kind) {
    case 1: return two_channels(state, on->pin[1], on->pin[2], on->elapsed);
    case 2: return two_channels(state, on->pin[1], !on->pin[2], on->elapsed);
    case 3:
    case 4: return stop(state, on);
    case MODE_SELECTOR: return mode_selector(state, on);
    case 6: return two_hands(state, on, false);
    case 7: return two_hands(state, on, true);
    case 8: return guard_monitoring(state, on);
    case 9: return guard_locking(state, on);
    case 10: return enable_switch(state, on);
    case 11: return safety_request(state, on);
    case OUT_CONTROL: return out_control(state, on);
    default: return device_monitoring(state, on);
  }
}

// Whether the time of a state begins anew while the state stays.
static bool restarts(int kind, int state, const bool *pin) {
  return (kind == MODE_SELECTOR && state == 0x8005 && modes_on(pin) > 0) ||
         (kind == 13 && state == 0x8010 && pin[2] && pin[3]);
}

// The mode behind a step: latched where a mode is selected, kept while it is, else 0.
static int mode_behind(int kind, const Block *before, int state, const bool *pin) {
  if (kind != MODE_SELECTOR || (state != 0x8000 && state != 0x8004)) return 0;
  if (before->code != 0x8005) return before->mode;
  for (int k = 0; k < 8; k++)
    if (pin[1 + k]) return k;
  return 0;
}

bool step_block(int kind, Block *block, const bool *pins, bool elapsed) {
  bool reset = has_reset(kind) && pins[pin_count(kind) - 1], auxiliary = auxiliary_of(kind, pins);
  Conditions on = { pins,       reset && !block->reset, reset && block->reset, auxiliary && !block->auxiliary, elapsed,
                    block->mode };
  int state = !pins[0] ? 0 : block->code == 0 ? kinds[kind].first_state : next_state(kind, block->code, &on);
  bool anew = state != block->code || restarts(kind, state, pins);
  block->mode = mode_behind(kind, block, state, pins);
  block->code = state;
  block->reset = reset;
  block->auxiliary = auxiliary;
  return anew;
}

bool output_of(int kind, const Block *block, int output) {
  int last = output_count(kind) - 1, state = block->code;
  if (output == last) return state >= 0xC000;
  if (output == last - 1) return state != 0;
  if (kind == MODE_SELECTOR) return (state == 0x8000 || state == 0x8004) && (output == 8 || output == block->mode);
  if (kind == 9 && output == 1) return state == 0x8012 || state == 0x8013;
  if (kind == 11 && output == 1) return state == 0x8002;
  return state == 0x8000;
}

static bool is_state(int kind, int code) {
  for (int k = 0; k < 24; k++)
    if (states[kind][k] == code) return true;
  return code == 0;
}

bool load_block(int kind, const uint8_t *bytes, Block *block) {
  int code = (int)number_at(bytes, 2);
  bool has_mode = kind == MODE_SELECTOR && (code == 0x8000 || code == 0x8004);
  bool fits = is_state(kind, code) && bytes[2] <= has_reset(kind) &&
              bytes[3] <= (kind == MODE_SELECTOR || kind == OUT_CONTROL) && bytes[4] <= (has_mode ? 7 : 0);
  for (int k = 9; k < FIELD_BYTES; k++) fits = fits && bytes[k] == 0;
  *block = (Block){ code, bytes[2], bytes[3], bytes[4] };
  return fits;
}

void store_block(const Block *block, uint8_t *bytes) {
  set_number(bytes, (uint32_t)block->code, 2);
  bytes[2] = block->reset;
  bytes[3] = block->auxiliary;
  bytes[4] = (uint8_t)block->mode;
}
