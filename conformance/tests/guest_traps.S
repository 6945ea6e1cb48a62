// Traps and returns between V=1 and V=0. Each mode's own register says whether it is enabled; vsctrctl alone filters.
#include "ctr.h"

#define TRAP(m, vs, med, hed, ENTER, row) \
        NEED(HAS_H); DELEGATE(med, hed); START(m, vs, 8f); ENTER(1f); \
1:      ecall; \
8:      LIST; row; END_LIST; ENDCASE
// From HS into a guest, or from VS to VU; an ECALL into M ends it.
#define RET(m, vs, ENTER, SRET_TO, row) \
        NEED(HAS_H); START(m, vs, 8f); ENTER(1f); \
1:      SRET_TO(2f); \
2:      ecall; \
8:      LIST; row; END_LIST; ENDCASE

TESTS(25000)
// covers: trap-whole guest-enables
CASE_ALL("VU to VS, both enabled"); TRAP(0, CTL_VU | CTL_VS, 1 << 8, 1 << 8, ENTER_VU, ROW(1b, ctr_vstrap, EXCEPTION))
// covers: trap-into guest-enables
CASE_ALL("VU to VS, VS enabled: without source"); TRAP(0, CTL_VS, 1 << 8, 1 << 8, ENTER_VU, ROW(0, ctr_vstrap, EXCEPTION))
// covers: trap-out guest-enables
CASE_ALL("VU to VS, VU enabled: nothing"); TRAP(0, CTL_VU, 1 << 8, 1 << 8, ENTER_VU, NONE)
CASE("VU to VS by the bits of mctrctl: nothing"); TRAP(CTL_U | CTL_S, 0, 1 << 8, 1 << 8, ENTER_VU, NONE)
// covers: guest-filters filter-traps
CASE_ALL("VU to VS, vsctrctl.EXCINH: nothing"); TRAP(0, CTL_VU | CTL_VS | CTL_EXCINH, 1 << 8, 1 << 8, ENTER_VU, NONE)
CASE_OR("VU to VS, mctrctl.EXCINH doesn't count", "VU to VS, sctrctl.EXCINH doesn't count"); TRAP(CTL_EXCINH, CTL_VU | CTL_VS, 1 << 8, 1 << 8, ENTER_VU, ROW(1b, ctr_vstrap, EXCEPTION))
// covers: trap-whole trap-into trap-out guest-enables
CASE("VU to HS, both enabled"); TRAP(CTL_S, CTL_VU, 1 << 8, 0, ENTER_VU, ROW(1b, ctr_strap, EXCEPTION))
CASE("VU to HS, HS enabled: without source"); TRAP(CTL_S, 0, 1 << 8, 0, ENTER_VU, ROW(0, ctr_strap, EXCEPTION))
CASE("VU to HS, VU enabled: nothing"); TRAP(0, CTL_VU, 1 << 8, 0, ENTER_VU, NONE)
CASE("VU to HS, mctrctl.U isn't vsctrctl.U: without source"); TRAP(CTL_S | CTL_U, 0, 1 << 8, 0, ENTER_VU, ROW(0, ctr_strap, EXCEPTION))
// covers: guest-filters filter-traps
CASE("VU to HS, vsctrctl.EXCINH: nothing"); TRAP(CTL_S, CTL_VU | CTL_EXCINH, 1 << 8, 0, ENTER_VU, NONE)
CASE("VU to HS, mctrctl.EXCINH doesn't count"); TRAP(CTL_S | CTL_EXCINH, CTL_VU, 1 << 8, 0, ENTER_VU, ROW(1b, ctr_strap, EXCEPTION))
CASE("VU to HS, HS enabled, vsctrctl.EXCINH: nothing"); TRAP(CTL_S, CTL_EXCINH, 1 << 8, 0, ENTER_VU, NONE)
// covers: trap-whole trap-into guest-enables
CASE("VS to HS, both enabled"); TRAP(CTL_S, CTL_VS, 1 << 10, 0, ENTER_VS, ROW(1b, ctr_strap, EXCEPTION))
CASE("VS to HS, HS enabled: without source"); TRAP(CTL_S, 0, 1 << 10, 0, ENTER_VS, ROW(0, ctr_strap, EXCEPTION))
// covers: guest-filters filter-traps
CASE("VS to HS, vsctrctl.EXCINH: nothing"); TRAP(CTL_S, CTL_VS | CTL_EXCINH, 1 << 10, 0, ENTER_VS, NONE)
CASE("VS to HS, mctrctl.EXCINH doesn't count"); TRAP(CTL_S | CTL_EXCINH, CTL_VS, 1 << 10, 0, ENTER_VS, ROW(1b, ctr_strap, EXCEPTION))
// covers: trap-whole return-whole return-out guest-enables
CASE_OR("VU to M, both enabled", "VU to HS, both enabled"); TRAP(CTL_M, CTL_VU, 0, 0, ENTER_VU, ROW(90b, 1b, TRAPRET); ROW(1b, ctr_mtrap, EXCEPTION))
CASE_OR("VS to M, both enabled", "VS to HS, both enabled"); TRAP(CTL_M, CTL_VS, 0, 0, ENTER_VS, ROW(90b, 1b, TRAPRET); ROW(1b, ctr_mtrap, EXCEPTION))
CASE_OR("VS to M, M enabled", "VS to HS, HS enabled"); TRAP(CTL_M, 0, 0, 0, ENTER_VS, ROW(90b, 0, TRAPRET); ROW(0, ctr_mtrap, EXCEPTION))
CASE_OR("VU to M, M enabled", "VU to HS, HS enabled"); TRAP(CTL_M, 0, 0, 0, ENTER_VU, ROW(90b, 0, TRAPRET); ROW(0, ctr_mtrap, EXCEPTION))
CASE("VU to M, by the bits of mctrctl for U and S: nothing of VU"); TRAP(CTL_M | CTL_U | CTL_S, 0, 0, 0, ENTER_VU, ROW(90b, 0, TRAPRET); ROW(0, ctr_mtrap, EXCEPTION))
CASE_OR("VS to M, VS enabled: nothing", "VS to HS, VS enabled: nothing"); TRAP(0, CTL_VS, 0, 0, ENTER_VS, NONE)
CASE_OR("VU to M, VU enabled: nothing", "VU to HS, VU enabled: nothing"); TRAP(0, CTL_VU, 0, 0, ENTER_VU, NONE)
CASE("VS to HS, VS enabled: nothing"); TRAP(0, CTL_VS, 1 << 10, 0, ENTER_VS, NONE)
CASE_ALL("VU to VS, neither enabled: nothing"); TRAP(0, 0, 1 << 8, 1 << 8, ENTER_VU, NONE)
// covers: guest-filters filter-traps
CASE_OR("VS to M, vsctrctl.EXCINH leaves the return alone", "VS to HS, vsctrctl.EXCINH leaves the return alone"); TRAP(CTL_M, CTL_VS | CTL_EXCINH, 0, 0, ENTER_VS, ROW(90b, 1b, TRAPRET))
CASE_OR("M to VS and back, vsctrctl.TRETINH leaves the trap alone", "HS to VS and back, vsctrctl.TRETINH leaves the trap alone"); TRAP(CTL_M, CTL_VS | CTL_TRETINH, 0, 0, ENTER_VS, ROW(1b, ctr_mtrap, EXCEPTION))
CASE_OR("M to VS and back, mctrctl.EXCINH and TRETINH don't count", "HS to VS and back, sctrctl.EXCINH and TRETINH don't count"); TRAP(CTL_M | CTL_EXCINH | CTL_TRETINH, CTL_VS, 0, 0, ENTER_VS, ROW(90b, 1b, TRAPRET); ROW(1b, ctr_mtrap, EXCEPTION))
// covers: guest-emulation emulation-traps
CASE("VU to HS, vsctrctl.RASEMU: nothing"); TRAP(CTL_S, CTL_VU | CTL_RASEMU, 1 << 8, 0, ENTER_VU, NONE)
CASE("VU to HS, mctrctl.RASEMU doesn't count"); TRAP(CTL_S | CTL_RASEMU, CTL_VU, 1 << 8, 0, ENTER_VU, ROW(1b, ctr_strap, EXCEPTION))
// covers: return-whole return-out return-into guest-enables
CASE("SRET from HS to VS, both enabled"); RET(CTL_S, CTL_VS, ENTER_S, SRET_TO_VS, ROW(92b, 2b, TRAPRET))
CASE("SRET from HS to VS, HS enabled: without target"); RET(CTL_S, 0, ENTER_S, SRET_TO_VS, ROW(92b, 0, TRAPRET))
CASE("SRET from HS to VS, VS enabled: nothing"); RET(0, CTL_VS, ENTER_S, SRET_TO_VS, NONE)
CASE("SRET from HS to VU, both enabled"); RET(CTL_S, CTL_VU, ENTER_S, SRET_TO_VU, ROW(92b, 2b, TRAPRET))
CASE("SRET from HS to VU, HS enabled: without target"); RET(CTL_S, 0, ENTER_S, SRET_TO_VU, ROW(92b, 0, TRAPRET))
CASE("SRET from HS to VU, VU enabled: nothing"); RET(0, CTL_VU, ENTER_S, SRET_TO_VU, NONE)
CASE("SRET from HS to VU, by mctrctl.U: without target"); RET(CTL_S | CTL_U, CTL_VS, ENTER_S, SRET_TO_VU, ROW(92b, 0, TRAPRET))
// covers: guest-filters filter-traps
CASE("SRET from HS to VS, vsctrctl.TRETINH: nothing"); RET(CTL_S, CTL_VS | CTL_TRETINH, ENTER_S, SRET_TO_VS, NONE)
CASE("SRET from HS to VS, mctrctl.TRETINH doesn't count"); RET(CTL_S | CTL_TRETINH, CTL_VS, ENTER_S, SRET_TO_VS, ROW(92b, 2b, TRAPRET))
CASE("SRET from HS to VS, HS enabled, vsctrctl.TRETINH: nothing"); RET(CTL_S, CTL_TRETINH, ENTER_S, SRET_TO_VS, NONE)
// covers: return-whole return-out return-into guest-enables
CASE_ALL("SRET from VS to VU, both enabled"); RET(0, CTL_VS | CTL_VU, ENTER_VS, SRET_TO_U, ROW(92b, 2b, TRAPRET))
CASE_ALL("SRET from VS to VU, VS enabled: without target"); RET(0, CTL_VS, ENTER_VS, SRET_TO_U, ROW(92b, 0, TRAPRET))
CASE_ALL("SRET from VS to VU, VU enabled: nothing"); RET(0, CTL_VU, ENTER_VS, SRET_TO_U, NONE)
// covers: guest-filters filter-traps
CASE_ALL("SRET from VS to VU, vsctrctl.TRETINH: nothing"); RET(0, CTL_VS | CTL_VU | CTL_TRETINH, ENTER_VS, SRET_TO_U, NONE)
CASE_ALL("SRET from VS to VS, enabled"); RET(0, CTL_VS, ENTER_VS, SRET_TO_S, ROW(92b, 2b, TRAPRET))
// covers: return-whole guest-enables
CASE("MRET into VS by mstatus.MPV")
        NEED(HAS_H | HAS_MPV)
        START(CTL_M, CTL_VS, 8f)
        li      t0, 1 << 39
        csrs    mstatus, t0
        ENTER_S(1f)
1:      ecall
8:      LIST
        ROW(90b, 1b, TRAPRET)
        ROW(1b, ctr_mtrap, EXCEPTION)
        END_LIST
ENDCASE
CASE("MRET into VU by mstatus.MPV")
        NEED(HAS_H | HAS_MPV)
        START(CTL_M, CTL_VU, 8f)
        li      t0, STATUS_MPV
        csrs    mstatus, t0
        ENTER_U(1f)
1:      ecall
8:      LIST
        ROW(90b, 1b, TRAPRET)
        ROW(1b, ctr_mtrap, EXCEPTION)
        END_LIST
ENDCASE
// covers: trap-source type-exception
CASE_ALL("a virtual-instruction exception in VS, and one in VU")
        NEED(HAS_H)
        START(CTL_M, CTL_VS, 8f)
        ENTER_VS(1f)
1:      csrr    t0, sctrdepth
8:      LIST
        ROW(90b, 1b, TRAPRET)
        ROW(1b, ctr_mtrap, EXCEPTION)
        END_LIST
        CHECK_CSR(mcause, VIRTUAL)
        START(CTL_M, CTL_VU, 8f)
        ENTER_VU(1f)
1:      SCTRCLR
8:      LIST
        ROW(90b, 1b, TRAPRET)
        ROW(1b, ctr_mtrap, EXCEPTION)
        END_LIST
        CHECK_CSR(mcause, VIRTUAL)
ENDCASE
// covers: trap-whole guest-enables
CASE("an exception within VS, and an ECALL from VS that VS can't take")
        NEED(HAS_H)
        DELEGATE(1 << BREAKPOINT | 1 << ECALL_VS, 1 << BREAKPOINT)
        START(0, CTL_VS, 8f)
        ENTER_VS(1f)
1:      ebreak
8:      LIST
        ROW(1b, ctr_vstrap, EXCEPTION)
        END_LIST
        START(CTL_S, CTL_VS, 8f)
        ENTER_VS(1f)
1:      ecall
8:      LIST
        ROW(1b, ctr_strap, EXCEPTION)
        END_LIST
ENDCASE
ENDTESTS
