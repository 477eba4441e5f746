# The entry of each service that on_service of machine.c sets. The number of its handler is in the condition codes of the
# vector's status word. The handler is given where PC and the status word lie on the stack.
        psw = 0177776

        .globl  _service, _handlers
_service:
        mov     *$psw, -(sp)
        mov     r0, -(sp)
        mov     r1, -(sp)
        mov     4(sp), r0
        bic     $0177760, r0
        asl     r0
        mov     sp, r1
        add     $6, r1
        mov     r1, -(sp)
        jsr     pc, *_handlers(r0)
        tst     (sp)+
        mov     (sp)+, r1
        mov     (sp)+, r0
        tst     (sp)+
        rti
