#include "verdicts.h"
#include "vexil_compat.h"

const struct calls calls_of[VERDICTS] = {
    [PLAIN] = {vexil_compat_verdict, vexil_compat_values, vexil_compat_report},
    [WITH_IMPORTS] = {vexil_compat_imports_verdict, vexil_compat_imports_values, vexil_compat_imports_report},
    [MENDED] = {vexil_compat_mended_verdict, vexil_compat_mended_values, vexil_compat_mended_report},
};
