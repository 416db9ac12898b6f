C     Calls seven of the printed subroutines, over stubs whose numbers are
C     easily worked out by hand: the first component of a place is that of
C     the body less that of the observer, a moment is one more than its
C     text, and the nearest point adds the radii.
      PROGRAM ROWS
      DOUBLE PRECISION V(3)
      DOUBLE PRECISION A
      DOUBLE PRECISION B
      V(1) = 1.0D0
      V(2) = 2.0D0
      V(3) = 3.0D0
      CALL LONLAT(V, A, B)
      PRINT '(2F8.2)', A, B
      CALL LEN(V, A)
      PRINT '(F8.2)', A
      CALL TWICE('7', A, B)
      PRINT '(2F8.2)', A, B
      CALL NEST('8', A)
      PRINT '(F8.2)', A
      CALL CLOCK('4', A)
      PRINT '(F8.2)', A
      CALL SIZE(6.5D0, A)
      PRINT '(F8.2)', A
      CALL NEARSC('5', 7, 2, 'J2000', 3.0D0, 20.0D0, 40.0D0, V)
      PRINT '(3F8.2)', V
      END
      SUBROUTINE RECLAT(V, RADIUS, LON, LAT)
      DOUBLE PRECISION V(3)
      DOUBLE PRECISION RADIUS
      DOUBLE PRECISION LON
      DOUBLE PRECISION LAT
      RADIUS = V(1) + V(2) + V(3)
      LON = 10.0D0 * V(1)
      LAT = 10.0D0 * V(2) + V(3)
      END
      DOUBLE PRECISION FUNCTION VNORM(V)
      DOUBLE PRECISION V(3)
      VNORM = V(1) + 2.0D0 * V(2) + 4.0D0 * V(3)
      END
      SUBROUTINE UTC2ET(U, E)
      CHARACTER*(*) U
      DOUBLE PRECISION E
      E = DBLE(ICHAR(U(1:1)) - ICHAR('0') + 1)
      END
      SUBROUTINE SCALE(X, Y)
      DOUBLE PRECISION X
      DOUBLE PRECISION Y
      Y = X / 4.0D0
      END
      SUBROUTINE VEQU(V, W)
      DOUBLE PRECISION V(3)
      DOUBLE PRECISION W(3)
      INTEGER I
      DO 10 I = 1, 3
      W(I) = V(I)
   10 CONTINUE
      END
      SUBROUTINE ADD(X, Y, Z)
      DOUBLE PRECISION X
      DOUBLE PRECISION Y
      DOUBLE PRECISION Z
      Z = X + Y
      END
      SUBROUTINE SPKEZP(BODY, E, FRAME, ABCORR, OBS, POS, LT)
      INTEGER BODY
      DOUBLE PRECISION E
      CHARACTER*(*) FRAME
      CHARACTER*(*) ABCORR
      INTEGER OBS
      DOUBLE PRECISION POS(3)
      DOUBLE PRECISION LT
      POS(1) = DBLE(BODY - OBS)
      POS(2) = E
      POS(3) = 0.0D0
      IF (FRAME .EQ. 'J2000' .AND. ABCORR .EQ. 'NONE') POS(3) = 1.0D0
      LT = 99.0D0
      END
      SUBROUTINE NEARPT(V, A, B, C, P, ALT)
      DOUBLE PRECISION V(3)
      DOUBLE PRECISION A
      DOUBLE PRECISION B
      DOUBLE PRECISION C
      DOUBLE PRECISION P(3)
      DOUBLE PRECISION ALT
      P(1) = V(1) + A
      P(2) = V(2) + B
      P(3) = V(3) + C
      ALT = 88.0D0
      END
