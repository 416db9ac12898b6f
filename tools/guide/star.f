C (proof 1)
C (1 (axiom 1 1) (or (= (toward star?0 et?1 inertial?2) (listed star?0 i
C+nertial?2))))
C (2 (goal) (or (not (= vector?0 (toward S T j2000)))) (answer vector?0)
C+)
C (3 (rewrite 1 1 left 2 1 (2) (with S T j2000) (with vector?0)) (or (no
C+t (= vector?0 (listed S j2000)))) (answer vector?0))
C (4 (reflex 3 1 (with (listed S j2000))) (or) (answer (listed S j2000))
C+)
      SUBROUTINE STAR(S, T, D)
      INTEGER S
      DOUBLE PRECISION T
      DOUBLE PRECISION D(3)
      CALL CATDIR(S, 'J2000', D)
      END
