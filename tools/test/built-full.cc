/* A small text of the form in which genautomata writes tables: two automata with full tables, and two query units. */

/* Vector translating external insn codes to internal ones.*/
static const unsigned char pipe_translate[] ATTRIBUTE_UNUSED = {
    0,     1,     2,     0,     3};

/* Vector for state transitions.  */
static const unsigned char pipe_transitions[] ATTRIBUTE_UNUSED = {
    1,     2,     0,     0,     5,     5,     1,     0,     5,     5, 
    2,     3,     1,     5,     3,     0,     4,     4,     4,     4
};

#if CPU_UNITS_QUERY
/* Vector for reserved units of states.  */
static const unsigned char pipe_reserved_units[] = {
    0,     1,     1,     0,     0};
#endif /* #if CPU_UNITS_QUERY */

/* Vector translating external insn codes to internal ones.*/
static const unsigned char port_translate[] ATTRIBUTE_UNUSED = {
    0,     1,     0,     0,     2};

/* Vector for state transitions.  */
static const unsigned char port_transitions[] ATTRIBUTE_UNUSED = {
    0,     1,     0,     1,     2,     0};

#if CPU_UNITS_QUERY
/* Vector for reserved units of states.  */
static const unsigned char port_reserved_units[] = {
    0,     2};
#endif /* #if CPU_UNITS_QUERY */


#define DFA__ADVANCE_CYCLE 4

struct DFA_chip
{
  unsigned char pipe_automaton_state;
  unsigned char port_automaton_state;
};

static int
internal_min_issue_delay (int insn_code, struct DFA_chip *chip ATTRIBUTE_UNUSED)
{
  switch (insn_code)
    {
    case 2: /* nop */
      break;
    }
  return 0;
}

static int
internal_state_transition (int insn_code, struct DFA_chip *chip ATTRIBUTE_UNUSED)
{
  int temp ATTRIBUTE_UNUSED;

  switch (insn_code)
    {
    case 0: /* add */
    case 3: /* sub */
      {

        temp = pipe_transitions [pipe_translate [insn_code] + chip->pipe_automaton_state * 4];
        if (temp >= 5)
          return internal_min_issue_delay (insn_code, chip);
        else
          chip->pipe_automaton_state = temp;
        return -1;
      }
    case 1: /* mul */
    case 4: /* $advance_cycle */
      {
        unsigned char _pipe_automaton_state;

        temp = pipe_transitions [pipe_translate [insn_code] + chip->pipe_automaton_state * 4];
        if (temp >= 5)
          return internal_min_issue_delay (insn_code, chip);
        else
          _pipe_automaton_state = temp;

        temp = port_transitions [port_translate [insn_code] + chip->port_automaton_state * 3];
        if (temp >= 2)
          return internal_min_issue_delay (insn_code, chip);
        else
          chip->port_automaton_state = temp;
        chip->pipe_automaton_state = _pipe_automaton_state;
        return -1;
      }

    default:
      return -1;
    }
}


#if CPU_UNITS_QUERY

int
get_cpu_unit_code (const char *cpu_unit_name)
{
  struct name_code {const char *name; int code;};
  int cmp, l, m, h;
  static struct name_code name_code_table [] =
    {
      {"slot", 0},
      {"write", 1},
    };

  return -1;
}

#endif /* #if CPU_UNITS_QUERY */
